// What native functions do with recorded memory.

import assert from "node:assert";
import strict from "node:assert/strict";
import { Buffer as NodeBuffer, Blob, isUtf8, transcode } from "node:buffer";
import childProcess from "node:child_process";
import crypto, { createHash } from "node:crypto";
import fs, { writeSync } from "node:fs";
import { devNull, tmpdir } from "node:os";
import { join } from "node:path";
import { StringDecoder } from "node:string_decoder";
import { PassThrough } from "node:stream";
import util, { inspect, isDeepStrictEqual } from "node:util";
import v8 from "node:v8";
import vm from "node:vm";
import { BroadcastChannel, Worker } from "node:worker_threads";
import zlib from "node:zlib";
import { BYTES, difference, notRefused, range } from "./watched-realm.mjs";

const bytes = (buffer) => new Uint8Array(buffer, 8, 16);
const words = (buffer) => new Int32Array(buffer, 8, 4);
const view = (buffer) => new DataView(buffer, 8, 16);
const node = (buffer) => Buffer.from(buffer, 8, 16);
const whole = (buffer) => buffer;

const PART = range(8, 24);
const ALL = range(0, BYTES);
const reads = (list) => ({ reads: list, writes: [] });
const writes = (list) => ({ reads: [], writes: list });
const read = reads(PART);
const written = writes(PART);
const untouched = reads([]);

/** Whether this node's Response takes an array on shared memory, as a text; else it throws. */
const TAKES_SHARED = Object.getOwnPropertyDescriptor(globalThis, "Response").get === undefined;

/** Whether this node's `copy` takes any array; else it takes one of bytes alone, and throws. */
const COPIES_ANY = doesNotThrow(() => Buffer.from("ab").copy(new Uint16Array(1)));

/** What the cases that work do, what they are tried on, and which accesses must be seen. */
const WORKING = {
  "copy into words": [words, (array) => Buffer.from("abcdef").copy(array, 2), writes(COPIES_ANY ? range(10, 16) : [])],
  ...(TAKES_SHARED ? { "Response": [bytes, (array) => new Response(array).headers.get("content-type"), read] } : {}),
  "TextDecoder.decode": [bytes, (array) => new TextDecoder().decode(array), read],
  "TextDecoder.decode of a DataView": [view, (array) => new TextDecoder().decode(array), read],
  "TextDecoder.decode of a buffer": [whole, (buffer) => new TextDecoder().decode(buffer), reads(ALL)],
  "TextEncoder.encodeInto": [bytes, (array) => new TextEncoder().encodeInto("äbc", array), writes(range(8, 12))],
  "StringDecoder.write": [bytes, (array) => new StringDecoder("utf8").write(array), read],
  "Buffer.from of a view": [bytes, (array) => Buffer.from(array), read],
  "Buffer.from of words": [words, (array) => Buffer.from(array), read],
  "Buffer.concat": [bytes, (array) => Buffer.concat([array, Buffer.from("x"), array]), read],
  "Buffer.compare": [bytes, (array) => Buffer.compare(array, Buffer.from("x")), read],
  "Buffer.byteLength": [bytes, (array) => Buffer.byteLength(array), untouched],
  "Buffer.copyBytesFrom": [words, (array) => Buffer.copyBytesFrom(array, 1, 2), read],
  "Buffer.alloc": [bytes, (array) => Buffer.alloc(20, array), read],
  "Buffer.isBuffer": [
    bytes, (array) => [Buffer.isBuffer(array), Buffer.isBuffer(Buffer.from(array.buffer))], untouched,
  ],
  "isUtf8": [bytes, (array) => isUtf8(array), read],
  "transcode": [bytes, (array) => transcode(array, "latin1", "utf8"), read],
  "Blob": [bytes, (array) => new Blob([array]).size, read],
  "fs.writeSync": [bytes, (array) => writeAndRead((file) => writeSync(file, array)), read],
  "fs.writeSync of a part": [bytes, (array) => writeAndRead((file) => fs.writeSync(file, array, 2, 3)), read],
  "fs.writeSync of a DataView": [view, (array) => writeAndRead((file) => fs.writeSync(file, array)), read],
  "fs.writevSync": [bytes, (array) => writeAndRead((file) => fs.writevSync(file, [array, array])), read],
  "fs.writeFileSync": [bytes, (array) => writeAndRead((file) => fs.writeFileSync(file, array)), read],
  "fs.readSync": [bytes, (array) => fromFile((file) => fs.readSync(file, array, 0, 5, 0)), written],
  "fs.readvSync": [bytes, (array) => fromFile((file) => fs.readvSync(file, [array])), written],
  "hash.update": [bytes, (array) => createHash("sha1").update(array).digest("hex"), read],
  "hash.update of a DataView": [view, (array) => createHash("sha1").update(array).digest("hex"), read],
  "hmac": [bytes, (array) => crypto.createHmac("sha1", array).update("a").digest("hex"), read],
  "timingSafeEqual": [bytes, (array) => crypto.timingSafeEqual(array, Buffer.alloc(16)), read],
  "pbkdf2Sync": [bytes, (array) => crypto.pbkdf2Sync(array, "salt", 1, 8, "sha1").toString("hex"), read],
  "cipher.update": [
    bytes, (array) => crypto.createCipheriv("aes-128-cbc", Buffer.alloc(16), array).update(array).toString("hex"), read,
  ],
  "crypto.getRandomValues": [bytes, (array) => sameAndZeroed(array, crypto.getRandomValues(array)), written],
  "webcrypto.getRandomValues": [
    bytes, (array) => sameAndZeroed(array, globalThis.crypto.getRandomValues(array)), written,
  ],
  "randomFillSync": [bytes, (array) => sameAndZeroed(array, crypto.randomFillSync(array)), written],
  "zlib.deflateSync": [bytes, (array) => zlib.inflateSync(zlib.deflateSync(array)).toString("hex"), read],
  "zlib.gzipSync of a buffer": [whole, (buffer) => zlib.gunzipSync(zlib.gzipSync(buffer)).length, { reads: ALL }],
  "v8.serialize": [words, (array) => v8.deserialize(v8.serialize({ array })), read],
  "v8.serialize of a buffer throws": [whole, (buffer) => v8.serialize(buffer)],
  "a stream's write": [bytes, (array) => passed(array), read],
  "WebAssembly.validate": [bytes, (array) => WebAssembly.validate(array), read],
  "assert.deepEqual": [words, (array) => assert.deepEqual(array, new Int32Array(4)), read],
  "assert.deepEqual of equal ones": [words, (array) => assert.deepEqual(array, new Int32Array([...array])), read],
  "assert.deepStrictEqual, within objects": [
    words, (array) => strict.deepEqual({ a: [array], b: new Map([[1, array]]) },
      { a: [Int32Array.from(array)], b: new Map([[1, new Int32Array([...array])]]) }), read,
  ],
  "assert.notDeepEqual": [words, (array) => assert.notDeepEqual(array, new Int32Array(array)), read],
  "assert.strictEqual of the same": [words, (array) => assert.strictEqual(array, array), untouched],
  "assert.strictEqual of others": [words, (array) => assert.strictEqual(array, 5), read],
  "assert.equal": [words, (array) => assert.equal(array, 5), read],
  "strict.equal of the same": [words, (array) => strict.equal(array, array), untouched],
  "assert.deepEqual of a DataView": [
    view, (array) => assert.deepEqual(array, new DataView(new SharedArrayBuffer(16))), read,
  ],
  "assert.deepEqual of buffers": [whole, (buffer) => assert.deepEqual(buffer, new SharedArrayBuffer(64)), reads(ALL)],
  "isDeepStrictEqual": [words, (array) => isDeepStrictEqual([array], [new Int32Array([...array])]), read],
  "util.types": [words, (array) => Object.keys(util.types).filter((name) => util.types[name](array)), untouched],
  "util.types of a DataView": [
    view, (array) => Object.keys(util.types).filter((name) => util.types[name](array)), untouched,
  ],
  "ArrayBuffer.isView": [words, (array) => [ArrayBuffer.isView(array), ArrayBuffer.isView([])], untouched],
  "inspect": [words, (array) => inspect(array), read],
  "inspect of nested ones": [words, (array) => inspect({ a: { b: { c: [array, { array }] } } }, { depth: 9 }), read],
  "inspect of a long one": [(buffer) => new Uint8Array(buffer), (array) => inspect([array, array]), { reads: ALL }],
  "inspect without a way of its own": [words, (array) => inspect({ array }, { customInspect: false }), read],
  "inspect of proxies": [words, (array) => inspect(array, { showProxy: false }), read],
  "inspect of what is hidden": [words, (array) => inspect(array, { showHidden: true }).replace(/<[^>]*>/, ""), read],
  "inspect of a DataView": [view, (array) => inspect(array), reads(ALL)],
  "inspect of a buffer": [whole, (buffer) => inspect(buffer), reads(ALL)],
  "inspect of a Buffer": [node, (array) => inspect(array), read],
  "inspect of a Buffer with more": [node, (array) => inspect(Object.assign(array, { more: 1 })), read],
  "inspect of a class": [
    (buffer) => new (class Words extends Int32Array {})(buffer, 8, 4), (array) => inspect(array), read,
  ],
  "util.format": [words, (array) => util.format("%o %O %j %s", array, array, array, array), read],
  "console.log of all that there is": [words, (array) => printed((console) => console.log("%o", { array })), read],
  "console.log": [words, (array) => printed((console) => console.log(array, { array })), read],
  "console.dir": [words, (array) => printed((console) => console.dir(array)), read],
  "console.table": [words, (array) => printed((console) => console.table(array)), read],
  "structuredClone of a view": [words, (array) => structuredClone(array), untouched],
  "structuredClone of a buffer": [whole, (buffer) => structuredClone(buffer), untouched],
  "structuredClone of a DataView": [view, (array) => structuredClone(array), untouched],
  "a clone is on the same memory": [words, (array) => {
    const clone = structuredClone(array);
    clone[1] = 77;
    return [array[1], clone.buffer === array.buffer, clone instanceof Int32Array, clone.length];
  }, { reads: range(12, 16), writes: range(12, 16) }],
  "a clone of a buffer is the same memory": [whole, (buffer) => {
    const clone = structuredClone(buffer);
    new Int32Array(clone)[1] = 77;
    return [new Int32Array(buffer)[1], clone === buffer];
  }, { reads: range(4, 8), writes: range(4, 8) }],
  "structuredClone of other things": [whole, () => structuredClone({ a: [1, new Int32Array(2)] }), untouched],
  "a message of other things": [whole, () => {
    const { port1 } = new MessageChannel();
    port1.postMessage({ a: [1, new Int32Array(2)], b: new SharedArrayBuffer(4) });
    port1.close();
  }, untouched],
  "code that vm runs here": [whole, (buffer) => {
    const cachedData = new vm.Script("7").createCachedData();
    class Own extends vm.Script {}
    const first = new Own("(buffer) => new Int8Array(buffer)[0]", "a.js").runInThisContext();
    return [first(buffer), vm.runInThisContext("(buffer) => new Uint8Array(buffer)[3]")(buffer),
      new Own("1") instanceof vm.Script, new vm.Script("7", { cachedData }).cachedDataRejected,
      vm.compileFunction("return 7")(), vm.compileFunction("return a", ["a"], { cachedData: undefined })(5)];
  }, reads([0, 3])],
  "a buffer's slice": [whole, (buffer) => new Uint8Array(buffer.slice(3, -50)), reads(range(3, 14))],
  "a buffer's slice of nothing": [whole, (buffer) => buffer.slice(9, 3), untouched],
};

/** Methods of a Buffer on recorded memory. */
const BUFFER = {
  "Buffer.from of a buffer": [node, (array) => [
    array[0], array.length, array.buffer.byteLength, array.parent.byteLength, array.offset, array.constructor.name,
  ], reads([8])],
  // Node looks at the first and the last byte that it is going to write.
  "a Buffer's numbers": [node, (array) => [array.readInt32LE(0), array.readUInt16BE(4), array.readDoubleLE(8),
    array.writeInt16LE(7, 2), array.writeFloatBE(1.5, 4), array.readBigUInt64LE(8)],
  { reads: range(8, 24).filter((byte) => byte !== 14), writes: range(10, 16) }],
  "toString": [node, (array) => [array.toString(), String(array)], read],
  "toString of a part": [node, (array) => array.toString("latin1", 2, 5), reads(range(10, 13))],
  "toString of nothing": [node, (array) => [array.toString("hex", 5, 5), array.toString("hex", 90)], untouched],
  "toString in no encoding": [node, (array) => array.toString("nothing", 1)],
  "utf8Slice": [node, (array) => array.utf8Slice(1, 3), reads(range(9, 11))],
  "utf8Slice out of range": [node, (array) => array.utf8Slice(1, 99), untouched],
  "write": [node, (array) => [array.write("äb"), array.write("ff00", 4, "hex"), array.write("abc", 6, 2)],
    writes([...range(8, 11), ...range(12, 16)])],
  "write out of range": [node, (array) => array.write("abc", 99), untouched],
  "latin1Write": [node, (array) => array.latin1Write("abc", 1, 2), writes(range(9, 11))],
  "toJSON": [node, (array) => JSON.stringify(array), read],
  "subarray": [node, (array) => {
    const part = array.subarray(2, 4);
    part[0] = 9;
    return [array[2], part.length, Buffer.isBuffer(part), part.toString("hex")];
  }, { reads: range(10, 12), writes: [10] }],
  "slice": [node, (array) => array.slice(-3)[0], reads([21])],
  "fill": [node, (array) => [array.fill(1, 2, 4) === array, array.fill("ab", 8) === array],
    writes([...range(10, 12), ...range(16, 24)])],
  "fill with itself": [node, (array) => array.fill(array) === array, { reads: PART, writes: PART }],
  "copy": [node, (array) => array.copy(array, 4, 1, 3), { reads: range(9, 11), writes: range(12, 14) }],
  "copy to another": [node, (array) => {
    const other = Buffer.alloc(4);
    return [array.copy(other, 1), other.toString("hex")];
  }, reads(range(8, 11))],
  "copy from another": [node, (array) => Buffer.from("abcdef").copy(array, 14), writes(range(22, 24))],
  "copy out of range": [node, (array) => array.copy(array, -1), untouched],
  "equals": [node, (array) => [array.equals(array), array.equals(Buffer.from([...array]))], read],
  "another equals it": [node, (array) => Buffer.alloc(16).equals(array), read],
  "compare": [node, (array) => array.compare(Buffer.alloc(16), 1, 3, 2), read],
  "indexOf": [
    node, (array) => [array.indexOf(array[3]), array.includes("zz"), array.lastIndexOf(Buffer.from([7]))], read,
  ],
  "a Buffer's method for other bytes": [
    bytes, (array) => Buffer.prototype.latin1Slice.call(array, 1, 3), reads(range(9, 11)),
  ],
  "indexOf in another": [node, (array) => Buffer.from(array).indexOf(array), read],
  "swap16": [node, (array) => array.swap16() === array, { reads: PART, writes: PART }],
  "swap64": [node, (array) => array.swap64() === array, { reads: PART, writes: PART }],
  "swap32 of a wrong length": [(buffer) => Buffer.from(buffer, 0, 6), (array) => array.swap32(), untouched],
  "keys and values": [(buffer) => Buffer.from(buffer, 8, 2), (array) => [[...array.keys()], [...array]],
    reads([8, 9])],
  "a Buffer's map": [node, (array) => Buffer.isBuffer(array.map((byte) => byte + 1)), read],
  "Buffer.from of its buffer": [node, (array) => Buffer.from(array.buffer, array.byteOffset, 1)[0], { reads: [8] }],
  "Buffer.from of what has a buffer as its value": [
    whole, (buffer) => Buffer.from({ valueOf: () => buffer })[9], reads([9]),
  ],
  "Buffer's parent": [whole, (buffer) => new (Object.getPrototypeOf(Buffer))(buffer)[1], reads([1])],
  "a Buffer's class": [
    node, (array) => new (Object.getPrototypeOf(NodeBuffer.prototype).constructor)(array.buffer)[1],
    reads([1]),
  ],
};

/** What gives memory to other threads ends the run, whatever is done with ordinary accesses. */
const ABROAD = {
  "postMessage of a port": [words, (array) => new MessageChannel().port1.postMessage(array)],
  "postMessage of a buffer": [whole, (buffer) => new MessageChannel().port1.postMessage({ a: new Map([[1, buffer]]) })],
  "postMessage of a getter": [
    whole, (buffer) => new MessageChannel().port1.postMessage({ get a() { return buffer; } }),
  ],
  "BroadcastChannel": [words, (array) => new BroadcastChannel("x").postMessage([array])],
  "workerData": [whole, (buffer) => new Worker("", { eval: true, workerData: { buffer } })],
};

/** What ends the run. */
const REFUSED = {
  "structuredClone of an object": [words, (array) => structuredClone({ array })],
  "structuredClone of a list with a buffer": [whole, (buffer) => structuredClone([[buffer]])],
  "a Buffer's method, of larger elements,": [words, (array) => Buffer.prototype.latin1Slice.call(array, 1, 3)],
  "fs.write": [bytes, (array) => fs.write(1, array, () => {})],
  "fs.promises.writeFile": [bytes, (array) => fs.promises.writeFile(devNull, array)],
  "fs.writeFile of a DataView": [view, (array) => fs.writeFile(devNull, array, () => {})],
  "crypto.subtle.digest": [bytes, (array) => crypto.subtle.digest("SHA-1", array)],
  "crypto.randomFill": [bytes, (array) => crypto.randomFill(array, () => {})],
  "zlib.deflate": [bytes, (array) => zlib.deflate(array, () => {})],
  "execFileSync's input": [bytes, (array) => childProcess.execFileSync("cat", { input: array })],
  ...(TAKES_SHARED ? {} : { "Response": [bytes, (array) => new Response(array)] }),
  "vm.createContext": [whole, () => vm.createContext({})],
  "vm.runInNewContext": [whole, (buffer) => vm.runInNewContext("new Int32Array(buffer)[1]", { buffer })],
  "runInNewContext of a vm.Script": [whole, (buffer) => new vm.Script("buffer").runInNewContext({ buffer })],
  "cachedData of vm.Script": [bytes, (array) => new vm.Script("1", { cachedData: array })],
  "cachedData of vm.compileFunction": [view, (cachedData) => vm.compileFunction("1", [], { cachedData })],
  "fetch": [bytes, (array) => fetch("http://localhost", { method: "POST", body: array })],
};

const path = join(tmpdir(), `recorder-natives-${process.pid}`);

/** @returns {boolean} whether a function throws nothing */
function doesNotThrow(body) {
  try {
    body();
    return true;
  } catch {
    return false;
  }
}

function writeAndRead(write) {
  const file = fs.openSync(path, "w+");
  const answer = write(file);
  const text = fs.readFileSync(path, "latin1");
  fs.closeSync(file);
  fs.rmSync(path);
  return [answer, text];
}

function fromFile(body) {
  fs.writeFileSync(path, "hello, world, all of it");
  const file = fs.openSync(path, "r");
  const answer = body(file);
  fs.closeSync(file);
  fs.rmSync(path);
  return answer;
}

/** The same array comes back; what is random in it is of no use here. */
function sameAndZeroed(array, answer) {
  array.fill(0);
  return answer === array;
}

function passed(array) {
  const stream = new PassThrough();
  stream.write(array);
  return stream.read().toString("hex");
}

function printed(print) {
  const chunks = [];
  const stream = new PassThrough();
  stream.on("data", (chunk) => chunks.push(chunk));
  print(new console.Console({ stdout: stream, stderr: stream }));
  return [stream.read()?.toString(), chunks.join("")];
}

/** By its name, a function for each case; it returns what is wrong. */
export function cases() {
  const made = {};
  for (const [name, [make, body, wanted]] of Object.entries({ ...WORKING, ...BUFFER })) {
    made[name] = () => difference(make, body, wanted);
  }
  for (const [name, [make, body]] of Object.entries(REFUSED)) made[`${name} is refused`] = () => notRefused(make, body);
  for (const [name, [make, body]] of Object.entries(ABROAD)) {
    made[`${name} is refused, without a way out`] = () => notRefused(make, body, false);
  }
  return made;
}
