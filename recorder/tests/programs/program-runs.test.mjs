// Whole programs under seeds: their threads, memory, messages and event loops, and how their runs end.

import assert from "node:assert/strict";
import { describe, it } from "node:test";
import { seedsTo } from "../helpers/recorded.mjs";
import { endingsOf, finishing, racing, runsOf } from "../helpers/whole-programs.mjs";

/** Main gives a worker a word, by a message or as its data. */
const WORKER = 'import { parentPort, workerData } from "node:worker_threads";\n';
const MAIN = 'import { MessageChannel, Worker, receiveMessageOnPort } from "node:worker_threads";\n' +
  "const started = (data, more = {}) => "
  + 'new Worker(new URL("./worker.mjs", import.meta.url), { workerData: data, ...more });\n';

describe("what a program throws", () => {
  it("is shown with the frames of its own code, and none of node's", async (context) => {
    const outcomes = await runsOf(context, {
      "main.mjs": 'import { readFileSync } from "node:fs";\nsetTimeout(() => {\n  readFileSync("/none");\n}, 1);',
    });
    const why = "failed: agent 0 threw Error: ENOENT: no such file or directory, open '/none'\n"
      + "    at Timeout._onTimeout (main.mjs:3:3)";
    assert.deepEqual(endingsOf(outcomes), [why]);
  });
});

describe("memory and messages", () => {
  it("a message orders what was done before it, so a program that hands over has no races", async (context) => {
    const outcomes = await finishing(context, {
      "main.mjs": `${MAIN}const words = new Int32Array(new SharedArrayBuffer(8));
        const worker = started(words);
        worker.on("message", () => { if (words[1] !== 6) throw new Error("it is " + words[1]); worker.terminate(); });
        words[0] = 5;
        worker.postMessage("go");`,
      "worker.mjs": `${WORKER}parentPort.on("message", () => {
        workerData[1] = workerData[0] + 1;
        parentPort.postMessage("done");
      });`,
    }, { seeds: seedsTo(4) });
    for (const { ordinary, state, checked } of outcomes) {
      assert.deepEqual([ordinary, state.shown, checked], [4, ["0500000006000000"], true]);
    }
  });

  it("two accesses that no message orders are a race, reported with both lines", async (context) => {
    const races = await racing(context, {
      "main.mjs": `${MAIN}const words = new Int32Array(new SharedArrayBuffer(8));
const worker = started(words);
worker.postMessage("go");
words[0] = 5;`,
      "worker.mjs": `${WORKER}parentPort.once("message", () => {
  globalThis.seen = workerData[0];
});`,
    }, { seeds: seedsTo(3) });
    for (const lines of races) assert.deepEqual(lines, [["main.mjs:6:10", "worker.mjs:3:31"]]);
  });

  it("a broadcast orders what its sender did before, but not what its receivers do", async (context) => {
    const outcomes = await runsOf(context, {
      "main.mjs": `import { BroadcastChannel } from "node:worker_threads";
${MAIN}const words = new Int32Array(new SharedArrayBuffer(8));
for (const id of [1, 2]) started({ words, id });
for (let ready = 0; ready < 2; ready = Atomics.load(words, 1)) Atomics.wait(words, 1, ready);
const news = new BroadcastChannel("news");
news.postMessage("go");
news.close();`,
      "worker.mjs": `${WORKER}import { BroadcastChannel } from "node:worker_threads";
const { words, id } = workerData;
const news = new BroadcastChannel("news");
news.onmessage = () => {
  if (id === 2) globalThis.seen = words[0];
  news.close();
};
Atomics.add(words, 1, 1);
Atomics.notify(words, 1);
if (id === 1) words[0] = 1;`,
    }, { seeds: seedsTo(12) });
    // Whichever worker gets the message first.
    assert.deepEqual([...new Set(outcomes.map(({ ending, checked }) => `${ending} ${checked}`))], ["race true"]);
    const lines = ["worker.mjs:11:24", "worker.mjs:6:40"];
    for (const { races } of outcomes) assert.deepEqual(races.map((race) => race.lines), [lines]);
  });

  it("memory that one thread has alone is no block: a wait on it is a sleep of the run's time", async (context) => {
    const [{ ending, state, calls }] = await runsOf(context, {
      "main.mjs": `const own = new Int32Array(new SharedArrayBuffer(4));
        const before = Date.now();
        if (Atomics.wait(own, 0, 0, 3_600_000) !== "timed-out") throw new Error("woken");
        if (Date.now() - before < 3_600_000) throw new Error("too soon");`,
    });
    assert.deepEqual([ending, state.shown, calls], ["finished", [], 0]);
  });

  it("writes of a thread before it shares its memory are there, and in the script", async (context) => {
    const [outcome] = await runsOf(context, {
      "main.mjs": `${MAIN}const words = new Int32Array(new SharedArrayBuffer(8));
        words[1] = 7;
        started({ deep: [new Map([["here", words]])] });`,
      "worker.mjs": `${WORKER}const words = workerData.deep[0].get("here");
        if (Atomics.load(words, 1) !== 7) throw new Error("it isn't there");
        Atomics.add(words, 1, 1);`,
    });
    assert.deepEqual([outcome.ending, outcome.state.shown, outcome.checked], ["finished", ["0000000008000000"], true]);
    assert.match(outcome.script ?? "", /"blocks": *\[8, 0, 0, 16384\]/);
  });

  it("a DataView and a Uint8Array of one buffer are watched in the thread that gets them", async (context) => {
    const [outcome] = await runsOf(context, {
      "main.mjs": `${MAIN}const buffer = new SharedArrayBuffer(16);
        const worker = started({ view: new DataView(buffer, 4, 8), bytes: new Uint8Array(buffer) });
        worker.on("exit", () => { if (new DataView(buffer).getInt16(4) !== 258) throw new Error("lost"); });`,
      "worker.mjs": `${WORKER}workerData.view.setUint8(1, 2);
        workerData.bytes[4] = 1;`,
    });
    assert.deepEqual([outcome.ending, outcome.ordinary], ["finished", 3]);
  });

  it("ports go from thread to thread with their messages", async (context) => {
    await finishing(context, {
      "main.mjs": `${MAIN}const { port1, port2 } = new MessageChannel();
        port1.postMessage("before");
        const worker = started({ port: port2 }, { transferList: [port2] });
        port1.once("message", (text) => { if (text !== "before, too") throw new Error(text); port1.close(); });`,
      "worker.mjs": `${WORKER}import { receiveMessageOnPort } from "node:worker_threads";
        const { message } = receiveMessageOnPort(workerData.port);
        workerData.port.postMessage(message + ", too");`,
    });
  });
});

describe("threads", () => {
  it("a program may have more threads than stood ready, and each knows what it is", async (context) => {
    const [outcome] = await finishing(context, {
      "main.mjs": `${MAIN}import { isMainThread, parentPort, threadId, workerData } from "node:worker_threads";
        if (!isMainThread || parentPort !== null || threadId !== 0 || workerData !== null) throw new Error("not main");
        if (process.argv[2] !== "word") throw new Error("no word");
        const sum = new Int32Array(new SharedArrayBuffer(4));
        for (let number = 1; number <= 5; number += 1) {
          started({ sum, number }, { argv: [number], env: { NUMBER: String(number) } });
        }
        process.on("exit", () => { if (Atomics.load(sum, 0) !== 15) throw new Error("the sum is " + sum[0]); });`,
      "worker.mjs": `${WORKER}import { isMainThread, threadId } from "node:worker_threads";
        const { sum, number } = workerData;
        if (isMainThread || parentPort === null || threadId !== number) throw new Error("not " + number);
        if (process.argv[2] !== String(number) || process.env.NUMBER !== String(number)) throw new Error("no words");
        Atomics.add(sum, 0, number);`,
    }, { args: ["word"] });
    assert.equal(outcome.progress.length, 6);
  });

  it("code that is evaluated, data: URLs and CommonJS modules can be threads", async (context) => {
    await finishing(context, {
      "main.cjs": `const { Worker } = require("node:worker_threads");
        const { join } = require("node:path");
        if (require.main !== module) throw new Error("it isn't the main module");
        const word = new Int32Array(new SharedArrayBuffer(4));
        const code = "Atomics.add(require('node:worker_threads').workerData, 0, 1);";
        new Worker(code, { eval: true, workerData: word });
        new Worker(join(__dirname, "worker.cjs"), { workerData: word });
        const text = 'import { workerData } from "node:worker_threads"; Atomics.add(workerData, 0, 4);';
        new Worker(new URL("data:text/javascript," + encodeURIComponent(text)), { workerData: word });
        process.on("exit", () => { process.exitCode = Atomics.load(word, 0) === 7 ? 0 : 1; });`,
      "worker.cjs": 'Atomics.add(require("node:worker_threads").workerData, 0, 2);',
    });
  });

  it("the first one may exit in a listener of its exit, and that code counts", async (context) => {
    const [{ ending, detail }] = await runsOf(context, { "main.mjs": 'process.on("exit", () => process.exit(3));' });
    assert.deepEqual([ending, detail],
      ["failed", "agent 0 exited with code 3: it calls process.exit at main.mjs:1:34"]);
  });

  it("one that is terminated while it waits leaves no script: its trace alone is judged", async (context) => {
    const [outcome] = await runsOf(context, {
      "main.mjs": `${MAIN}const words = new Int32Array(new SharedArrayBuffer(8));
        const worker = started(words);
        worker.on("message", async () => {
          if (await worker.terminate() !== 1) throw new Error("its exit code isn't 1");
          Atomics.notify(words, 0);
        });`,
      "worker.mjs": `${WORKER}parentPort.postMessage("waits");
        Atomics.wait(workerData, 0, 0);`,
    }, { seeds: [1] });
    assert.deepEqual([outcome.ending, outcome.script], ["finished", undefined]);
    assert.match(outcome.noScript ?? "", /terminated while it waited/);
  });
});

describe("the seed", () => {
  const files = {
    "main.mjs": `${MAIN}const words = new Int32Array(new SharedArrayBuffer(8));
      const workers = [started(words), started(words)];
      const order = [];
      for (const [at, worker] of workers.entries()) {
        worker.on("message", (text) => { order.push(at + text); Atomics.store(words, 1, order.length); });
      }
      setTimeout(() => order.push("timer"), 1);
      process.on("exit", () => { process.exitCode = order.join() === "0a,0b,1a,1b,timer" ? 0 : 7; });`,
    "worker.mjs": `${WORKER}Atomics.add(workerData, 0, 1); parentPort.postMessage("a"); parentPort.postMessage("b");`,
  };

  it("gives the same script and trace each time, and another one another order", async (context) => {
    const seeds = seedsTo(6);
    const [once, again] = [await runsOf(context, files, { seeds }),
      await runsOf(context, files, { seeds: [...seeds].reverse() })];
    const partsOf = ({ ending, script, trace, report }) => ({ ending, script, trace, report });
    assert.deepEqual(once.map(partsOf), again.reverse().map(partsOf));
    assert.ok(once.every(({ trace }) => trace !== undefined));
    assert.ok(new Set(once.map(({ script }) => script)).size > 3);
  });

  it("draws which of a thread's tasks comes next", async (context) => {
    const outcomes = await runsOf(context, {
      "main.mjs": `import { MessageChannel } from "node:worker_threads";
        let order = "";
        for (const name of ["a", "b"]) {
          const { port1, port2 } = new MessageChannel();
          port2.once("message", () => { order += name; });
          port1.postMessage(name);
        }
        setImmediate(() => { order += "i"; });
        process.on("exit", () => { process.exitCode = ["abi", "aib", "bai", "bia", "iab", "iba"].indexOf(order); });`,
    }, { seeds: seedsTo(40) });
    assert.ok(new Set(outcomes.map(({ detail }) => detail)).size >= 4);
    assert.ok(!outcomes.some(({ detail }) => detail.includes("-1")), "an order is none of these");
  });
});

describe("threads that are kept", () => {
  it("find nothing of an earlier run, except for what its code has changed in the realm", async (context) => {
    const outcomes = await runsOf(context, {
      "main.mjs": `${MAIN}import { once } from "node:events";
        import { count } from "./count.mjs";
        import { createRequire } from "node:module";
        import net from "node:net";
        const time = net.getDefaultAutoSelectFamilyAttemptTimeout();
        if (time > 1_000) throw new Error("sockets aren't as node has them");
        net.setDefaultAutoSelectFamilyAttemptTimeout(10 * time);
        const { counted } = createRequire(import.meta.url)("./counted.cjs");
        if (count() !== 1 || counted() !== 1) throw new Error("a module is still there");
        const isNew = process.listenerCount("mine") === 0 && !process.env.LEFT && !process.exitCode;
        if (!isNew) throw new Error("the process isn't new");
        process.on("mine", () => {});
        process.env.LEFT = "yes";
        globalThis.runs = (globalThis.runs ?? 0) + 1;
        await new Promise((done) => setTimeout(done, 3_000 * globalThis.runs));
        const word = new Int32Array(new SharedArrayBuffer(8));
        const [worker, other] = [started(word), started(word)];
        worker.postMessage("never taken");
        await once(other, "exit");
        other.terminate();
        worker.unref();
        if (Atomics.load(word, 0) < 1) throw new Error("nobody has added");
        Atomics.store(word, 1, globalThis.runs);
        setTimeout(() => { process.exitCode = 9; throw new Error("a timer is still there"); }, 2_000).unref();`,
      "worker.mjs": `${WORKER}import { count } from "./count.mjs";
        if (count() !== 1) throw new Error("a module is still there");
        Atomics.add(workerData, 0, 1);`,
      "count.mjs": "let counted = 0;\nexport const count = () => (counted += 1);",
      "counted.cjs": "let counted = 0;\nexports.counted = () => (counted += 1);",
    }, { seeds: seedsTo(4), options: { everywhere: true } });
    // The realm's globals show that the thread is the same. Each run is made twice, the second time to learn its lines.
    // Pilots would be runs of the thread, too.
    assert.deepEqual(endingsOf(outcomes), ["finished: "]);
    assert.deepEqual(outcomes.map(({ state: { shown: [bytes] } }) => Number(bytes.slice(8, 10))), [1, 3, 5, 7]);
  });

  it("call no listener of an earlier run's ports, which node closes then", async (context) => {
    await finishing(context, {
      "main.mjs": `import { MessageChannel } from "node:worker_threads";
        if (globalThis.heard) throw new Error(globalThis.heard);
        const [one, other] = [new MessageChannel(), new MessageChannel()];
        one.port1.on("close", () => { globalThis.heard = "one that was left open"; });
        let closed = 0;
        other.port1.on("close", () => { if ((closed += 1) > 1) globalThis.heard = "one that has gone, twice"; });
        one.port2.postMessage(other.port1, [other.port1]);`,
    }, { seeds: seedsTo(4) });
  });
});
