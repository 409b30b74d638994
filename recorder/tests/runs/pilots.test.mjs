// Pilots among real runs: they show nothing of themselves, they end in time, and what they learn changes what is found
// in no wrong way.

import assert from "node:assert/strict";
import { readFileSync, writeFileSync } from "node:fs";
import { join } from "node:path";
import { test } from "node:test";
import { explore, record } from "../../recorder.mjs";
import { agentsIn, agentsPath, commandNow, recordCase, temporaryFolder } from "../helpers/common.mjs";

/**
 * Runs the command line to its end, without sabsim.
 * @param {string[]} words
 * @param {number} [jobs] each has pilots, and workers, of its own
 */
const run = (words, jobs = 1) => commandNow([...words, "--check", "0", "--jobs", `${jobs}`]);

test("output of agents in pilots isn't shown, and no module remembers pilots", (context) => {
  const module = agentsIn(temporaryFolder(context), `
    globalThis.runs = (globalThis.runs ?? 0) + 1;
    console.log("run", globalThis.runs, "of agent", agent);
    Atomics.add(new Int32Array(buffers[0]), 0, globalThis.runs);
  `);
  const { stdout, stderr } = run([module, "--agents", "2", "--buffers", "4", "--seeds", "7..8"]);
  assert.equal(stderr, "run 1 of agent 0\nrun 1 of agent 1\nrun 2 of agent 0\nrun 2 of agent 1\n");
  assert.match(stdout,
    /^2 runs: 2 finished\nseed 7 was run once more at the end, and left other bytes: .*\n2 final states/);
});

test("calls beside ordinary accesses that race are places to switch, though none of the calls is shared", (context) => {
  const module = agentsIn(temporaryFolder(context), `
    const words = new Int32Array(buffers[0]);
    Atomics.add(words, 4 + agent, 1);
    const before = words[0];
    Atomics.add(words, 4 + agent, 1);
    words[0] = before + 1;
    Atomics.add(words, 4 + agent, 1);
  `);
  const { stdout } = run([module, "--agents", "2", "--buffers", "32", "--seeds", "1..60", "--races", "allow"]);
  // Where both have read before one writes, one addition is lost.
  for (const bytes of ["01000000", "02000000"]) assert.match(stdout, new RegExp(`^ {2}\\d+ runs .*: ${bytes}`, "m"));
});

test("what init leaves doesn't end pilots: agents change at their calls as without init", async (context) => {
  const module = agentsIn(temporaryFolder(context), `
    const words = new Int32Array(buffers[0]);
    if (agent === 0) words[0] = 0;
    Atomics.store(words, 0, Atomics.load(words, 0) + 1);
  `);
  const options = { agents: 2, buffers: [8], strategy: "uniform", races: "allow", seeds: 60 };
  for (const ordinary of ["watch", "store"]) {
    const found = [];
    for (const left of [0, 7]) {
      const init = (/** @type {SharedArrayBuffer[]} */ [buffer]) => void (new Int32Array(buffer)[1] = left);
      const firsts = [];
      for await (const { bytes } of explore({ ...options, module, ordinary, init })) firsts.push(bytes[0].slice(0, 8));
      found.push(firsts);
    }
    assert.deepEqual(found[1], found[0]);
    // In some runs both have loaded before one stores.
    assert.deepEqual([...new Set(found[1])].sort(), ["01000000", "02000000"]);
  }
});

test("an agent that waits for what pilots couldn't see doesn't spin for ever", (context) => {
  // A pilot is cut after 10,000 moves, before agent 1 makes its store: six agents make 700 calls of three moves each.
  // So for all that pilots show the flag is agent 0's own.
  const module = agentsIn(temporaryFolder(context), `
    const words = new Int32Array(buffers[0]);
    for (let time = 0; agent > 0 && time < 700; time += 1) Atomics.add(words, agent, 1);
    if (agent === 1) Atomics.store(words, 0, 1);
    for (let look = 0; agent === 0 && Atomics.load(words, 0) === 0; look += 1) if (look > 990) throw new Error("no");
  `);
  const words = ["--agents", "6", "--buffers", "24", "--seeds", "1..4", "--strategy", "uniform"];
  const { status, stdout } = run([module, ...words]);
  assert.equal(status, 0, stdout);
});

test("pilots that meet a limit, that fail or that don't end let the runs be made all the same", async () => {
  const withPilots = { everywhere: false };
  const spins = await recordCase("spins", withPilots);
  assert.deepEqual([spins.ending, /has made 1000 calls/.test(spins.detail)], ["limit", true]);
  const endless = await recordCase("loops", { ...withPilots, seconds: 0.3 });
  const silent = "agent 1 has made no call for 0.3 s: it is at cases.mjs:40:5";
  assert.deepEqual([endless.ending, endless.detail], ["limit", silent]);
  const init = () => {
    throw new Error("no");
  };
  assert.match((await recordCase("addition", { ...withPilots, init })).detail, /^init threw Error: no/);
  assert.equal((await recordCase("exits", withPilots)).ending, "failed");
});

test("after a pilot that doesn't end there is no other", async (context) => {
  const folder = temporaryFolder(context);
  const [module, begun] = ["agents.mjs", "begun"].map((name) => join(folder, name));
  writeFileSync(module, `import { appendFileSync } from "node:fs";
export const setup = { agents: 2, buffers: [4] };
export default function agent({ agent }) {
  if (agent === 0) return;
  appendFileSync(${JSON.stringify(begun)}, ".");
  for (;;);
}
`);
  const { ending } = await record({ module, sabsim: false, seconds: 0.3, everywhere: false });
  assert.equal(ending, "limit");
  assert.equal(readFileSync(begun, "utf8"), "..", "in a pilot, and in the run");
});

test("a run is the same whether its group has made others before, with other options for its workers", async () => {
  const options = { module: agentsPath("naive-mutex"), sabsim: false, seed: 21 };
  const one = await record({ ...options });
  assert.deepEqual(await record({ ...options, strategy: "mixed", everywhere: false }), one);
  assert.notEqual((await record({ ...options, everywhere: true, strategy: "switch:0.5" })).moves, 0);
});
