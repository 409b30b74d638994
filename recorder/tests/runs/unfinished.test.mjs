// No run passes whose agents have left something undone, since what they would do later never happens.

import assert from "node:assert/strict";
import { writeFileSync } from "node:fs";
import { join } from "node:path";
import { it } from "node:test";
import { record } from "../../recorder.mjs";
import { EARLIER, NOTHING_AFTER } from "../agents/unfinished-earlier.mjs";
import { WAYS } from "../agents/unfinished.mjs";
import { agentsPath, temporaryFolder } from "../helpers/common.mjs";
import { recorded, seedsTo } from "../helpers/recorded.mjs";

it("an agent that leaves something for later fails its run, and one that doesn't passes", async () => {
  // With a trace each run is made once: so each is the next way.
  const outcomes = await recorded({ module: agentsPath("unfinished"), trace: true }, seedsTo(WAYS.length));
  assert.equal(outcomes.length, WAYS.length);
  for (const [way, { ending, fails, detail }] of outcomes.entries()) {
    const [what] = WAYS[way];
    if (what === undefined) {
      assert.deepEqual([way, ending, fails, detail], [way, "finished", false, ""]);
    } else {
      assert.deepEqual([way, ending, fails], [way, "failed", true]);
      assert.ok(detail.startsWith(`agent 1 ${what}`), `${way}: ${detail}`);
    }
  }
});

// The line on which the agent settles the promise.
const LEFT_EARLIER = `agent 1 goes on later, by a promise that it settles, but an agent must be synchronous
    at unfinished-earlier.mjs:38:47`;

it("what comes after a promise from before is left too, where the run settles the promise", async () => {
  // The module says at once what comes after, as in `promise.then`, an `await` or a combination of promises.
  for (const way of EARLIER) {
    const options = { module: agentsPath("unfinished-earlier"), args: [way], trace: true };
    const outcomes = await recorded(options, [1, 2, 3]);
    const found = outcomes.map(({ ending, detail }) => [ending, detail]);
    const left = ["failed", LEFT_EARLIER];
    const right = ["finished", ""];
    // Under seed 2 it is settled; later that does nothing.
    assert.deepEqual(found, NOTHING_AFTER.includes(way) ? [right, right, right] : [right, left, right], way);
  }
});

// Agents that go on later, each with the line on which they do so; an agent that only returns a promise has none.
const LINES = {
  "async function agent({ buffers }) {\n  call(buffers);\n  await 5;\n  call(buffers);\n}": "returned a promise, 3:3",
  "async function agent({ buffers }) {\n  call(buffers);\n}": "returned a promise, ",
  "({ buffers }) => {\n  call(buffers);\n  return Promise.resolve(1)\n    .then(() => call(buffers));\n}":
    "returned a promise, 4:6",
  "async function agent({ buffers }) {\n  for await (const buffer of buffers) call([buffer]);\n}":
    "returned a promise, 2:20",
  "({ buffers }) => {\n  call(buffers);\n  void later();\n}": "goes on later, by a promise, 6:3",
  "({ buffers }) => {\n  call(buffers);\n  void later();\n  call(buffers);\n}": "goes on later, by a promise, 7:3",
  "({ buffers }) => {\n  call(buffers);\n  queueMicrotask(\n    () => {});\n}": "goes on later, by queueMicrotask, 3:3",
};

it("the line of the code that goes on is in the message, and failures are counted by it", async (context) => {
  for (const [agent, said] of Object.entries(LINES)) {
    const module = join(temporaryFolder(context), "agents.mjs");
    const others = "async function later() {\n  await null;\n}\n"
      + "const call = ([b]) => Atomics.add(new Int32Array(b), 0, 1);";
    writeFileSync(module, `export default ${agent}\n${others}\n`);
    const { ending, detail, failure } = await record({ module, agents: 1, buffers: [4], sabsim: false });
    const [, what, at] = /^(.*), ([\d:]*)$/.exec(said);
    const place = at === "" ? [] : [`agents.mjs:${at}`];
    const message = `agent 0 ${what}, but an agent must be synchronous`;
    assert.deepEqual([ending, detail], ["failed", [message, ...place.map((each) => `    at ${each}`)].join("\n")],
      agent);
    assert.deepEqual(failure, { message: [message], sources: place });
  }
});
