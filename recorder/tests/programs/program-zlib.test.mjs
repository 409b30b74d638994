// Results of zlib in whole programs are tasks: with a text and a place, and drawn among others. The programs of
// `programs/order` show that they are as in node.

import assert from "node:assert/strict";
import { test } from "node:test";
import { explore } from "../../recorder.mjs";
import { programOf, runsOf } from "../helpers/whole-programs.mjs";

const STREAMS = `import { Readable } from "node:stream"; import { pipeline } from "node:stream/promises";
import { createGzip, createGunzip, deflate } from "node:zlib";
const shared = new Int32Array(new SharedArrayBuffer(4));
await pipeline(Readable.from(["text"]), createGzip(),
  createGunzip(), async (source) => { for await (const part of source) Atomics.add(shared, 0, part.length); });
await new Promise((done) => deflate("text", done));
if (Atomics.load(shared, 0) !== 4) throw new Error("other bytes");`;

test("a task with a result says whose it is and where the stream was made", async (context) => {
  const [{ ending, tasks = [] }] = await runsOf(context, { "main.mjs": STREAMS });
  assert.equal(ending, "finished");
  const texts = new Set(tasks.map(({ agent, text, source }) => `${agent} ${text}, at ${source}`));
  assert.deepEqual([...texts].sort(), [
    "0 has a result of Deflate, at main.mjs:6:29", "0 has a result of Gunzip, at main.mjs:5:3",
    "0 has a result of Gzip, at main.mjs:4:41",
  ]);
});

/** A result, a message and an immediate: the last line has their order. */
const THREE = `import { MessageChannel } from "node:worker_threads"; import { gzip } from "node:zlib";
const order = []; const { port1, port2 } = new MessageChannel();
const all = Promise.all([new Promise((done) => gzip("text", done)).then(() => order.push("result")),
  new Promise((done) => port2.once("message", done)).then(() => order.push("message")),
  new Promise((done) => setImmediate(done)).then(() => order.push("immediate"))]);
port1.postMessage(1);
await all; port1.close();
throw new Error(order.join());`;

test("the seed draws when a result comes among messages and immediates, and a seed's run repeats", async (context) => {
  const program = programOf(context, { "main.mjs": THREE });
  const details = async () => {
    const found = [];
    const options = { program, seeds: 40, programOutput: /** @type {const} */ ("none") };
    for await (const { detail } of explore(options)) found.push(/threw Error: ([a-z,]+)/.exec(detail)?.[1]);
    return found;
  };
  const first = await details();
  assert.ok(new Set(first).size >= 4, [...new Set(first)].join(" "));
  assert.deepEqual(await details(), first);
});
