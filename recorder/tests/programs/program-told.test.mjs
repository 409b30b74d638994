// What a run of a program says besides where it stands: which thread has ended by an error, what was in messages, what
// was written to standard error before an exit, and which await never settles.

import assert from "node:assert/strict";
import { describe, it } from "node:test";
import { record } from "../../recorder.mjs";
import { WORKER, mainWith, programOf, runsOf } from "../helpers/whole-programs.mjs";

/** @param {any} context @param {Record<string, string>} files @returns {Promise<any>} the first run */
async function runOf(context, files) {
  const [outcome] = await runsOf(context, files, { seeds: [1], options: { trace: true } });
  return outcome;
}

const DIES = {
  "main.mjs": `${mainWith(4)}started();
    Atomics.wait(words, 0, 0);`,
  "worker.mjs": `${WORKER}if (words.length === 1) throw new Error("the reason");`,
};

describe("a thread that has ended by an error", () => {
  it("is named with its error and line, in a deadlock's detail and among the tasks", async (context) => {
    const { ending, detail, tasks, messages } = await runOf(context, DIES);
    assert.equal(ending, "deadlock");
    assert.match(detail, new RegExp("^agent 1 \\(worker\\.mjs, started at main\\.mjs:3:27\\) ended: "
      + "threw Error: the reason, at worker\\.mjs:2:\\d+\\nagent 0 waits at"));
    assert.ok(tasks.some(({ agent, text, source }) => agent === 1 && text === "throws Error: the reason"
      && /^worker\.mjs:2:\d+$/.test(source)));
    assert.deepEqual(messages.map(([, text]) => text), ["online", "error, Error: the reason", "exit with code 1"]);
  });

  it("is named if the others are stuck, also by an exit code", async (context) => {
    const { ending, detail } = await runOf(context, {
      "main.mjs": `import { Worker } from "node:worker_threads";
        new Worker("process.exit(3)", { eval: true });
        new MessageChannel().port1.on("message", () => {});`,
    });
    assert.equal(ending, "stuck");
    assert.match(detail, /^agent 1 \(.*\) ended: calls process\.exit at \[worker eval\]:1:9/);
  });

  it("isn't named if it ended well", async (context) => {
    const main = `import { Worker } from "node:worker_threads";
      new Worker("0", { eval: true });
      new MessageChannel().port1.on("message", () => {});`;
    const { ending, detail } = await runOf(context, { "main.mjs": main });
    assert.deepEqual([ending, /ended/.test(detail)], ["stuck", false]);
  });
});

describe("messages", () => {
  it("are shown with what is in them", async (context) => {
    const { messages } = await runOf(context, {
      "main.mjs": `const { port1, port2 } = new MessageChannel();
        port1.postMessage({ id: 1, words: new Int32Array(new SharedArrayBuffer(4)) });
        port2.once("message", () => { port2.close(); process.exitCode = 1; });`,
    });
    assert.deepEqual(messages[0], [0, "{ id: 1, words: Int32Array }"]);
  });

  it("are shortened", async (context) => {
    const { messages } = await runOf(context, {
      "main.mjs": `const { port1, port2 } = new MessageChannel();
        const deep = { a: { b: { c: 1 } } };
        const far = new RangeError("far");
        for (const value of ["a".repeat(60), [1, 2n, null, undefined, true, "six", 7], deep, new Map(), far]) {
          port1.postMessage(value);
        }
        port2.on("message", () => {});
        setTimeout(() => { process.exit(1); });`,
    });
    assert.deepEqual(messages.slice(0, 5).map(([, text]) => text), [
      `"${"a".repeat(40)}.."`, "[1, 2n, null, undefined, true, ..]", "{ a: { b: {..} } }", "Map", "RangeError: far",
    ]);
  });
});

describe("a message that can't be read", () => {
  const SENDS = `import { Worker } from "node:worker_threads";
    const worker = new Worker(new URL("./w.mjs", import.meta.url));
    worker.on("message", () => console.log("never"));
    await new Promise((done) => worker.on(process.argv[2], done));`;
  const LIST = `import { parentPort } from "node:worker_threads";
    let list = null;
    for (let at = 0; at < 6_000; at += 1) list = { at, next: list };
    parentPort.postMessage(list);`;

  it("is an event with the reason, also if nobody listens", async (context) => {
    const { detail, tasks } = await runOf(context,
      { "main.mjs": SENDS.replace("process.argv[2]", '"answer"'), "w.mjs": LIST });
    assert.match(detail, /^agent 0 exited with code 13: /);
    const texts = tasks.map(({ agent, text }) => `${agent} ${text}`);
    assert.ok(texts.includes("0 gets messageerror, RangeError: Maximum call stack size exceeded"), texts.join("\n"));
  });

  it("is emitted as messageerror", async (context) => {
    const main = SENDS.replace("process.argv[2]", '"messageerror"');
    const beside = "[new Int32Array(new SharedArrayBuffer(4)), list]";
    const all = "(() => { const all = []; for (let one = list; one !== null; one = one.next) all.push(one); "
      + "return all; })()";
    for (const sent of ["list", beside, all]) {
      const worker = LIST.replace("postMessage(list)", `postMessage(${sent})`);
      assert.equal((await runOf(context, { "main.mjs": main, "w.mjs": worker })).ending, "finished", sent);
    }
  });

  it("is an event without data in a browser, by each way", async (context) => {
    const main = `const channel = new BroadcastChannel("a");
      const worker = new Worker("w.js");
      const { port1, port2 } = new MessageChannel();
      const got = (target) => new Promise((done) => { target.onmessage = target.onmessageerror = done; });
      const asked = [worker, port1, channel].map(got);
      worker.postMessage(port2, [port2]);
      const events = await Promise.all(asked);
      const texts = events.map(({ type, data }) => type + " " + data);
      if (texts.some((text) => text !== "messageerror null")) throw new Error(texts.join());
      close();`;
    const worker = `let list = null;
      for (let at = 0; at < 6_000; at += 1) list = { at, next: list };
      postMessage(list);
      new BroadcastChannel("a").postMessage(list);
      onmessage = ({ data }) => data.postMessage(list);`;
    const options = { web: true };
    const [{ ending, detail }] = await runsOf(context, { "main.mjs": main, "w.js": worker }, { seeds: [1], options });
    assert.deepEqual([ending, detail], ["finished", ""]);
  });

  it("orders what its sender did before, and what its receiver does then", async (context) => {
    const main = `${mainWith(4)}const worker = started();
      worker.on("messageerror", () => { words[0] += 1; });`;
    const worker = LIST.replace("let list", "workerData[0] = 1; let list")
      .replace("{ parentPort }", "{ parentPort, workerData }");
    const outcomes = await runsOf(context, { "main.mjs": main, "worker.mjs": worker }, { seeds: [1, 2, 3, 4, 5] });
    assert.deepEqual(outcomes.map(({ ending }) => ending), Array(5).fill("finished"));
  });
});

describe("an exit", () => {
  it("shows what was written to standard error before, and its line", async (context) => {
    const { detail } = await runOf(context, {
      "main.mjs": `async function main() { throw new Error("the balance is 3"); }
        main().catch((problem) => { console.error(problem); process.exit(1); });`,
    });
    assert.match(detail, new RegExp(["^agent 0 exited with code 1: it calls process\\.exit at main\\.mjs:2:69",
      "after it wrote to standard error:\\nError: the balance is 3\\n    at main \\(main\\.mjs:1:31\\)"].join(", ")));
    assert.doesNotMatch(detail, /recorder\/lib|node:internal/);
  });

  it("shows nothing that was written in an earlier run", async (context) => {
    const main = `const words = new Int32Array(new SharedArrayBuffer(4));
      if (process.argv[2] === "prints") console.error("once");
      process.exit(2);`;
    const outcomes = await runsOf(context, { "main.mjs": main }, { seeds: [1, 2] });
    assert.deepEqual(outcomes.map(({ detail }) => detail.replace(/ at .*$/s, "")),
      Array(2).fill("agent 0 exited with code 2: it calls process.exit"));
  });

  it("with code 13 shows the await that never settles", async (context) => {
    const { detail } = await runOf(context, {
      "main.mjs": `import "./first.mjs";
        setTimeout(async () => { await 4; });
        await 1;
        await new Promise(() => {});
        console.log("never");`,
      "first.mjs": "await 2;",
    });
    assert.match(detail,
      /^agent 0 exited with code 13: it has a top-level await that never settles, at main\.mjs:4:\d+$/);
  });

  it("with code 13 is shortened to one with the same line", async (context) => {
    const code = "require('worker_threads').parentPort.postMessage(1)";
    const program = programOf(context, {
      "main.mjs": `import { Worker } from "node:worker_threads";
        const workers = [0, 1].map(() => new Worker("${code}", { eval: true }));
        const said = (worker) => new Promise((done) => worker.on("message", done));
        await said(workers[0]);
        await said(workers[1]);`,
    });
    for (let seed = 1; seed <= 20; seed += 1) {
      const { fails } = await record({ program, seed });
      if (!fails) continue;
      const { detail, shortened } = await record({ program, seed, shorten: true });
      assert.match(detail, /never settles, at main\.mjs:[45]:\d+$/);
      assert.doesNotMatch(shortened?.unchanged ?? "", /couldn't be made again/);
      return;
    }
    assert.fail("no run has failed");
  });
});
