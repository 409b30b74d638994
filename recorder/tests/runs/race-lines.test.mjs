// Lines of code of unordered accesses among many: they are found, though only few accesses note their lines, since that
// takes long.

import assert from "node:assert/strict";
import { describe, it } from "node:test";
import { NotedPlaces } from "../../lib/memory/noted-places.mjs";
import { explore } from "../../recorder.mjs";
import { programOf } from "../helpers/whole-programs.mjs";

const BYTES = 12_000;

/**
 * Two threads write a part of the bytes each, one by one; the first writes one byte of the other's, by a line of its
 * own.
 */
const OVERLAPS = `import { once } from "node:events";
import { Worker, isMainThread, workerData } from "node:worker_threads";
if (isMainThread) {
  const bytes = new Uint8Array(new SharedArrayBuffer(${2 * BYTES}));
  const all = [0, 1].map((part) => new Worker(new URL(import.meta.url), { workerData: { bytes, part } }));
  await Promise.all(all.map((worker) => once(worker, "exit")));
} else {
  const { bytes, part } = workerData;
  const from = part * ${BYTES};
  for (let at = from; at < from + ${BYTES}; at += 1) {
    bytes[at] = part + 1;
  }
  if (part === 0) bytes[${BYTES + 7}] = 9;
}`;

describe("unordered accesses among many", () => {
  it("have their lines in each run, and in the trace few others have", async (context) => {
    const program = programOf(context, { "main.mjs": OVERLAPS });
    const outcomes = [];
    for await (const outcome of explore({ program, seeds: "1..4", programOutput: "none" })) outcomes.push(outcome);
    for (const { ending, races } of outcomes) {
      assert.equal(ending, "race");
      assert.deepEqual(races.map(({ lines }) => lines.map((line) => line.replace(/:\d+$/, ""))),
        [["main.mjs:11", "main.mjs:13"]]);
    }
    const traced = outcomes.filter(({ trace }) => trace !== undefined);
    assert.equal(traced.length, 1);
    const events = (traced[0].trace ?? "").trim().split("\n").map((line) => JSON.parse(line));
    const lined = events.filter(({ does, source }) => does === "write" && source !== null);
    assert.ok(lined.length > 1_000 && lined.length < 5_000, `${lined.length} of ${events.length}`);
    assert.ok(lined.some(({ byte, source }) => byte === BYTES + 7 && /main\.mjs:13/.test(source)));
  });
});

describe("places whose accesses note their lines", () => {
  it("are those that were added, and some near them", () => {
    const places = new NotedPlaces(NotedPlaces.memory());
    places.add(2, 1_000, 1_001);
    assert.deepEqual([places.has(2, 1_000, 1_001), places.has(2, 0, 1_000), places.has(2, 900, 1_008)],
      [true, true, true]);
    assert.deepEqual([places.has(2, 0, 400), places.has(1, 1_000, 1_001), places.has(2, 1_008, 1_016)],
      [false, false, false]);
    places.clear();
    assert.equal(places.has(2, 1_000, 1_001), false);
    assert.equal(places.has(2, 0, 10_000), true);
  });
});
