// What the engine and node have for modules of agents: each name has its row, and what rows say of newer names is done.

import assert from "node:assert/strict";
import { test } from "node:test";
import threads, { Worker } from "node:worker_threads";
import { SURFACE, namesHere } from "../../lib/agent/agent-api-table.mjs";
import { moduleOf } from "../helpers/common.mjs";
import { recorded } from "../helpers/recorded.mjs";
import { whereNodeHasIt } from "../helpers/where-node-has-it.mjs";

/** Reports, from a worker as agents have it, the names that each owner has. */
const LOOKING = `
  import * as perf_hooks from "node:perf_hooks";
  import threads from "node:worker_threads";
  const TypedArray = Object.getPrototypeOf(Int8Array);
  const owners = {
    globalThis, Atomics, SharedArrayBuffer, "SharedArrayBuffer.prototype": SharedArrayBuffer.prototype, ArrayBuffer,
    "ArrayBuffer.prototype": ArrayBuffer.prototype, TypedArray, "TypedArray.prototype": TypedArray.prototype,
    Uint8Array, "Uint8Array.prototype": Uint8Array.prototype, "DataView.prototype": DataView.prototype, WebAssembly,
    "WebAssembly.Memory.prototype": WebAssembly.Memory.prototype, Promise, Date,
    performance: Object.getPrototypeOf(performance), perf_hooks: perf_hooks.default, worker_threads: threads,
    navigator: globalThis.navigator === undefined ? {} : Object.getPrototypeOf(navigator),
    "MessagePort.prototype": threads.MessagePort.prototype, "Worker.prototype": threads.Worker.prototype,
  };
  const names = Object.entries(owners).map(([owner, found]) => [owner, Object.getOwnPropertyNames(found)]);
  threads.parentPort.postMessage(names);`;

/** @returns {Promise<[owner: string, names: string[]][]>} */
const found = () => new Promise((done, fail) => {
  new Worker(new URL(`data:text/javascript,${encodeURIComponent(LOOKING)}`)).once("message", done).once("error", fail);
});

test("each global, and all that there is for memory, threads and time, has one row", async () => {
  const names = await found();
  assert.deepEqual(names.map(([owner]) => owner).sort(), Object.keys(SURFACE).sort());
  const here = names.flatMap(([owner, list]) =>
    (owner === "globalThis" ? list : list.map((name) => `${owner}.${name}`)));
  assert.deepEqual(here.sort(), namesHere().sort());
});

/** A module of one agent, whose line 3 is given. @param {object} context of the test @param {string} line */
const moduleWith = (context, line) => moduleOf(context, `import threads from "node:worker_threads";
    export default ({ buffers: [buffer] }) => {
    ${line}
      Atomics.add(new Int32Array(buffer), 0, 1);
    };`);

const withLocks = whereNodeHasIt(threads.locks !== undefined);

withLocks("navigator.locks, also of worker_threads, is refused by name and line", async (context) => {
  for (const [code, name] of [
    ["navigator.locks.request('a', () => {});", "request"],
    ["threads.locks.request('a', { ifAvailable: true }, () => 5);", "request"],
    ["threads.locks.query();", "query"],
  ]) {
    const module = moduleWith(context, code);
    for (const more of [{}, { ordinary: "store" }, { unrecorded: "allow" }]) {
      const [{ ending, detail }] = await recorded({ module, agents: 1, buffers: [8], ...more });
      assert.equal(ending, "failed", code);
      assert.ok(detail.startsWith("agent 0 did something that the recorder can't record: Error: "
        + `navigator.locks.${name} was called, and its locks aren't simulated: use a lock in \`buffers\`\n`), detail);
      assert.match(detail, /\n +at .*agents\.mjs:3:\d+/);
    }
  }
});

const withPause = whereNodeHasIt(Atomics.pause !== undefined);

withPause("Atomics.pause is no move, and checks what it is given as the engine", async (context) => {
  const refused = "try { Atomics.pause('5'); throw 5; } catch (error) { if (!(error instanceof TypeError)) throw 6; }";
  const module = moduleWith(context, `if (Atomics.pause(3) !== undefined) throw 7; ${refused}`);
  const [{ ending, detail, script }] = await recorded({ module, agents: 1, buffers: [8] });
  assert.equal(ending, "finished", detail);
  assert.deepEqual(JSON.parse(script).agents[0].calls, [["add", "Int32", 0, 1]]);
});
