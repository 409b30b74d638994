// Atomics.waitAsync in whole programs: what node does with it, its place in the line of waiters, its time, its part in
// happens-before, and what is said of runs that use it.

import assert from "node:assert/strict";
import { describe, it } from "node:test";
import { commandThere } from "../helpers/common.mjs";
import { seedsTo } from "../helpers/recorded.mjs";
import { WORKER, endingsOf, finishing, mainWith, programOf, racing, runsOf } from "../helpers/whole-programs.mjs";

const MAIN = mainWith(16);

describe("the line of waiters", () => {
  it("has threads that sleep and promises in the order in which they came", async (context) => {
    await finishing(context, {
      "main.mjs": `${MAIN}new MessageChannel().port1.postMessage(words);
        const order = [];
        const wait = (name) => Atomics.waitAsync(words, 0, 0).value.then(() => { order.push(name); });
        const waits = [wait("a"), wait("b")];
        started();
        while (Atomics.load(words, 1) === 0) await new Promise((done) => setTimeout(done, 1));
        // It sleeps when nothing else can move.
        await new Promise((done) => setTimeout(done, 5_000));
        waits.push(wait("c"));
        if (Atomics.notify(words, 0, 2) !== 2) throw new Error("two wait");
        await Promise.all(waits.slice(0, 2));
        if (order.join() !== "a,b") throw new Error(order.join());
        if (Atomics.notify(words, 0, 1) !== 1) throw new Error("the worker waits");
        while (Atomics.load(words, 2) === 0) await new Promise((done) => setTimeout(done, 1));
        if (order.length > 2) throw new Error("c came before the worker");
        if (Atomics.notify(words, 0) !== 1) throw new Error("c waits");
        await waits[2];`,
      "worker.mjs": `${WORKER}Atomics.store(words, 1, 1); Atomics.wait(words, 0, 0); Atomics.store(words, 2, 1);`,
    }, { seeds: seedsTo(12), options: { timeouts: 0 } });
  });

  it("loses the promises of a thread that ends", async (context) => {
    await finishing(context, {
      "main.mjs": `${MAIN}const worker = started();
        worker.on("message", async () => {
          await worker.terminate();
          const own = Atomics.waitAsync(words, 0, 0);
          if (Atomics.notify(words, 0) !== 1) throw new Error("a notify counts promises of a thread that has ended");
          await own.value;
        });`,
      "worker.mjs": `${WORKER}Atomics.waitAsync(words, 0, 0);
        Atomics.waitAsync(words, 0, 0, 1e6);
        parentPort.postMessage(0);
        parentPort.on("message", () => {});`,
    }, { seeds: seedsTo(3) });
  });

  it("has a promise from before its memory could be reached by another thread", async (context) => {
    await finishing(context, {
      "main.mjs": `${MAIN}const [one, other] = [0, 0].map(() => Atomics.waitAsync(words, 0, 0).value);
        if (Atomics.notify(words, 0, 1) !== 1 || Atomics.notify(words, 1) !== 0) throw new Error("one waits there");
        started();
        if (await one !== "ok" || await other !== "ok") throw new Error("not woken");
        if (words[1] !== 5) throw new Error("it is " + words[1]);`,
      "worker.mjs": `${WORKER}words[1] = 5; if (Atomics.notify(words, 0) !== 1) throw new Error("one waits");`,
    }, { seeds: seedsTo(12) });
  });
});

describe("time", () => {
  it("is the run's, and the earliest one is up first", async (context) => {
    await finishing(context, {
      "main.mjs": `${MAIN}const order = [];
        const before = Date.now();
        const done = [3_600_000, 5_000, 60_000].map((time, at) => Atomics.waitAsync(words, at, 0, time).value
          .then((how) => { order.push(time / 1_000 + how); }));
        setTimeout(() => order.push("timer"), 10_000);
        setTimeout(() => order.push(Atomics.notify(words, 2)), 30_000);
        setTimeout(() => {}, 4_000_000);
        await Promise.all(done);
        if (order.join() !== "5timed-out,timer,1,60ok,3600timed-out") throw new Error(order.join());
        if (Date.now() - before < 3_600_000) throw new Error("too soon");`,
      "worker.mjs": "",
    }, { seeds: seedsTo(3) });
  });

  it("doesn't keep a thread alive, so a program that awaits nothing else ends with code 13", async (context) => {
    const outcomes = await runsOf(context, {
      "main.mjs": `${MAIN}started(); await Atomics.waitAsync(words, 0, 0, 1_000_000).value;`,
      "worker.mjs": "",
    }, { seeds: seedsTo(3) });
    const [why, ...others] = endingsOf(outcomes);
    assert.deepEqual(others, []);
    assert.match(why,
      /^failed: agent 0 exited with code 13: it has a top-level await that never settles, at main\.mjs:4:\d+$/);
  });
});

describe("happens-before", () => {
  const files = (/** @type {string} */ first, /** @type {string} */ then) => ({
    "main.mjs": `${MAIN}const { value } = Atomics.waitAsync(words, 0, 0);
const worker = started();
${first}
if (words[1] === 7) Atomics.store(words, 2, 1);
${then}`,
    "worker.mjs": `${WORKER}words[1] = 7;\nAtomics.notify(words, 0);`,
  });

  it("has what comes before a notify before what comes after the promise", async (context) => {
    const outcomes = await finishing(context, files("await value;", ""), { seeds: seedsTo(6) });
    for (const { trace = "", checked } of outcomes) {
      assert.equal(checked, true);
      const does = trace.split("\n").slice(0, -1).map((line) => JSON.parse(line)).filter(({ agent }) => agent === 0);
      const [wait, leave] = ["wait", "leave"].map((word) => does.find((event) => event.does === word));
      assert.deepEqual([leave.call, leave.block, leave.byte, leave.waiters], [wait.call, wait.block, wait.byte, true]);
    }
  });

  it("doesn't have it before what doesn't await the promise: that is a race", async (context) => {
    const races = await racing(context, files("", "await value;"), { seeds: seedsTo(3) });
    for (const lines of races) assert.deepEqual(lines, [["main.mjs:7:10", "worker.mjs:2:10"]]);
  });
});

describe("a run that uses it", () => {
  it("is replayed, except if more are pending than agents can be: the summary counts such runs", async (context) => {
    const path = programOf(context, {
      "main.mjs": `${MAIN}started();
        // With the two threads there are 18 agents, or 3.
        const all = Array.from({ length: Math.random() < 0.5 ? 16 : 1 }, () => Atomics.waitAsync(words, 0, 0).value);
        Atomics.store(words, 1, all.length);
        await Promise.all(all);`,
      "worker.mjs": `${WORKER}while (Atomics.load(words, 1) === 0); Atomics.notify(words, 0);`,
    });
    const { stdout } = await commandThere(
      ["--program", path, "--seeds", "1..12", "--jobs", "1", "--limits", "allow"]);
    const LEFT = /^(\d+) runs have no script, and weren't replayed: it has more than 16 threads and waits of /m;
    const [, counted] = LEFT.exec(stdout) ?? [];
    assert.ok(Number(counted) > 1 && Number(counted) < 12, stdout);
    assert.match(stdout,
      new RegExp(`^${12 - Number(counted)} of 12 runs were replayed and judged by the simulator`, "m"));
  });

  it("is the same each time", async (context) => {
    const files = {
      "main.mjs": `${MAIN}started(); started();
        for (let round = 0; round < 3; round += 1) await Atomics.waitAsync(words, 0, 0, 20).value;`,
      "worker.mjs": `${WORKER}for (let round = 0; round < 3; round += 1) {
        Atomics.add(words, 1, 1);
        Atomics.notify(words, 0, 1);
      }`,
    };
    const seeds = seedsTo(6);
    const [once, again] = [await runsOf(context, files, { seeds }),
      await runsOf(context, files, { seeds: [...seeds].reverse() })];
    const partsOf = ({ ending, trace, detail }) => ({ ending, trace, detail });
    assert.deepEqual(once.map(partsOf), again.reverse().map(partsOf));
    assert.ok(new Set(once.map(({ trace }) => trace)).size > 3);
  });
});
