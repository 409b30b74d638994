// The names of a program's threads and blocks in texts about its runs.

import assert from "node:assert/strict";
import { describe, it } from "node:test";
import { blockNames, namedText } from "../../lib/run/words/program-names.mjs";
import { runsOf } from "../helpers/whole-programs.mjs";

describe("names of a program's threads and blocks", () => {
  it("a block is named by the line where its memory was made, with a number if several were made there", () => {
    assert.deepEqual(blockNames(["ring.mjs:12:18", "", "main.mjs:3:5"]), ["ring.mjs:12", "", "main.mjs:3"]);
    assert.deepEqual(blockNames(["a.mjs:1:5", "a.mjs:1:40", "a.mjs:2:5"]),
      ["a.mjs:1, number 1", "a.mjs:1, number 2", "a.mjs:2"]);
  });

  it("the first mention of each has its name, and scripts' calls stay as they are", () => {
    const names = { threads: ["", "w.mjs, started at main.mjs:5:11"], blocks: ["ring.mjs:12", "main.mjs:3"] };
    const named = (/** @type {string} */ text) => namedText(text, names);
    assert.equal(named("agent 0 waits; agent 1 waits\nagent 1 waits"),
      "agent 0 waits; agent 1 (w.mjs, started at main.mjs:5:11) waits\nagent 1 waits");
    assert.equal(named('byte 4 of block 1: its call 2, ["wait", "Int32_b0", 1, 0]; byte 0 of block 1'),
      'byte 4 of block 1 (main.mjs:3): its call 2, ["wait", "Int32_b0", 1, 0]; byte 0 of block 1');
    assert.equal(named("agent 0 reads Uint8_b0_at4[4], agent 1's call, block 2 and agent 2 go on"),
      "agent 0 reads Uint8_b0_at4[4] (ring.mjs:12), agent 1's call, block 2 and agent 2 go on");
  });

  it("a finding names each thread that it is about, and the memory, also that of another thread", async (context) => {
    const [outcome] = await runsOf(context, {
      "main.mjs": `import { Worker } from "node:worker_threads";
const start = (data) => new Worker(new URL("./worker.mjs", import.meta.url), { workerData: data });
const [one, two] = [new SharedArrayBuffer(4), new SharedArrayBuffer(8)];
start(one);
start(two);
`,
      "worker.mjs": `import { workerData } from "node:worker_threads";
Atomics.wait(new Int32Array(workerData), 0, 0);
`,
    });
    assert.equal(outcome.ending, "deadlock");
    assert.deepEqual(outcome.threads, ["", ...[1, 2].map(() => "worker.mjs, started at main.mjs:2:25")]);
    const lines = outcome.detail.split("\n").slice(1).sort();
    assert.deepEqual(lines.map((line) => line.replace(/: its call.*/, "")), [
      "agent 1 (worker.mjs, started at main.mjs:2:25) waits at byte 0 of block 0 (main.mjs:3, number 1)",
      "agent 2 (worker.mjs, started at main.mjs:2:25) waits at byte 0 of block 1 (main.mjs:3, number 2)",
    ]);
  });
});
