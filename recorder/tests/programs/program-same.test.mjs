// The same seed makes the same run of a program, byte for byte: whatever the threads have run before, and in any
// process.

import assert from "node:assert/strict";
import { describe, it } from "node:test";
import { fileURLToPath } from "node:url";
import { jsonOf, nodeThere } from "../helpers/common.mjs";
import { sameRuns } from "../helpers/same-runs.mjs";

/** Programs with messages, timers, waits and ordinary accesses; some of their runs fail. */
const NAMES = ["pool/right", "queue/wakes-wrong-kind", "deadline/ignored", "terminate/in-the-middle",
  "amid-work/two-steps"];
const COMPARED = [1, 2, 3];

/** Which seeds each process is given, in this order: others come before and between those that are compared. */
const ORDERS = [[1, 2, 3, 1, 2, 3], [50, 3, 51, 2, 2, 52, 1, 53, 3, 1]];

const PROCESS = fileURLToPath(new URL("../helpers/same-process.mjs", import.meta.url));

/** @type {(names: string[], seeds: number[]) => ReturnType<typeof sameRuns>} what a process of its own returns */
async function runsElsewhere(names, seeds) {
  const words = [names, seeds].map((each) => JSON.stringify(each));
  return jsonOf(await nodeThere([PROCESS, ...words]));
}

/** The threads of each process have run other programs before. Those of the first one are fresh for each program. */
const both = Promise.all([sameRuns(NAMES, ORDERS[0], { isFresh: true }),
  runsElsewhere([...NAMES].reverse(), ORDERS[1])]);
// The tests await it.
both.catch(() => {});

describe("a seed makes the same script, report and trace", () => {
  for (const name of NAMES) {
    it(name, async () => {
      const processes = (await both).map((all) => all[name]);
      for (const { problem } of processes) assert.equal(problem, undefined);
      for (const seed of COMPARED) {
        const all = processes.flatMap(({ runs }) => runs.filter((run) => run.seed === seed).map(({ text }) => text));
        assert.equal(all.length, ORDERS.flat().filter((each) => each === seed).length);
        for (const run of all) assert.equal(run, all[0]);
      }
      const [{ runs }] = processes;
      const compared = runs.filter(({ seed }) => COMPARED.includes(seed));
      assert.ok(new Set(compared.map(({ text }) => text)).size > 1, "all seeds make one run");
    });
  }
});
