// The order in which results come within a thread: each that node itself can give, and none that it can't.

import assert from "node:assert/strict";
import { test } from "node:test";
import { explore } from "../../recorder.mjs";
import { programOf } from "../helpers/whole-programs.mjs";

/** What begins something, by its name. */
const KINDS = `{
  stat: () => new Promise((done) => fs.stat("/", done)),
  readFile: () => fs.promises.readFile("/etc/hostname"),
  zlib: () => new Promise((done) => zlib.deflateRaw(Buffer.alloc(10), done)),
  pbkdf2: () => new Promise((done) => crypto.pbkdf2("a", "b", 1, 8, "sha1", done)),
  digest: () => crypto.subtle.digest("SHA-1", new Uint8Array(1)),
  wasm: () => WebAssembly.compile(new Uint8Array([0, 0x61, 0x73, 0x6d, 1, 0, 0, 0])),
}`;

/** @param {string} body @returns {string} the text of a program that throws the order in which its steps came */
const programText = (body) => `import crypto from "node:crypto"; import fs from "node:fs"; import zlib from "node:zlib";
const order = []; const kinds = ${KINDS};
${body}
throw new Error("order " + order.join(""));`;

/**
 * @param {import("node:test").TestContext} context
 * @param {string} body
 * @returns {Promise<string[]>} the orders that come in some seeds
 */
async function ordersOf(context, body) {
  const program = programOf(context, { "main.mjs": programText(body) });
  const found = new Set();
  for await (const { detail } of explore({ program, seeds: 30, programOutput: "none" })) {
    found.add(/order (\w+)/.exec(detail)?.[1]);
  }
  return [...found].sort();
}

/** @param {string} one @param {string} other */
const both = (one, other) => `await Promise.all([kinds.${one}().then(() => order.push("a")), `
  + `kinds.${other}().then(() => order.push("b"))]);`;

for (const [one, other] of [
  ["stat", "stat"], ["readFile", "stat"], ["wasm", "stat"], ["zlib", "pbkdf2"], ["digest", "readFile"],
]) {
  test(`${one} and ${other} come in both orders`, async (context) => {
    assert.deepEqual(await ordersOf(context, both(one, other)), ["ab", "ba"]);
  });
}

test("what a file handle has begun is done before it is closed, and a folder is read in its order", async (context) => {
  const found = await ordersOf(context, `const handle = await fs.promises.open("/etc/hostname");
const folder = await fs.promises.opendir("/");
await Promise.all([handle.readFile().then(() => order.push("a")), handle.stat().then(() => order.push("a")),
  handle.close().then(() => order.push("b"))]);
await Promise.all([folder.read().then(() => order.push("c")), folder.read().then(() => order.push("d")),
  folder.close().then(() => order.push("e"))]);`);
  assert.deepEqual(found, ["aabcde"]);
});

test("the chunks of one stream keep their order", async (context) => {
  const found = await ordersOf(context, `const gzip = zlib.createGzip(); const chunks = [];
gzip.on("data", (chunk) => chunks.push(chunk));
for (const each of ["a", "b", "c"]) { gzip.write(each); gzip.flush(); }
await new Promise((done) => gzip.end(done));
await new Promise((done) => setImmediate(done));
order.push(zlib.gunzipSync(Buffer.concat(chunks)));`);
  assert.deepEqual(found, ["abc"]);
});
