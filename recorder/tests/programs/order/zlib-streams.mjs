// Streams of zlib are node's own: in pieces, flushed, with other parameters, reset, closed amid work, and with errors.
import { AsyncLocalStorage } from "node:async_hooks";
import { once } from "node:events";
import { Readable } from "node:stream";
import { buffer, text } from "node:stream/consumers";
import { pipeline } from "node:stream/promises";
import zlib from "node:zlib";

const { constants } = zlib;
const large = Buffer.from(Array.from({ length: 200_000 }, (_, at) => (at * at) % 241));
const pairs = [["Gzip", "Gunzip"], ["Deflate", "Inflate"], ["DeflateRaw", "InflateRaw"], ["Gzip", "Unzip"],
  ["BrotliCompress", "BrotliDecompress"], ["ZstdCompress", "ZstdDecompress"]];
for (const [pack, unpack] of pairs.filter(([name]) => name in zlib)) {
  const packed = [];
  const packing = zlib[`create${pack}`]({ chunkSize: 1_024 });
  await pipeline(Readable.from([large, "text"]), packing, async (source) => {
    for await (const part of source) packed.push(part);
  });
  const unpacking = new zlib[unpack]();
  const texts = Buffer.concat(packed).toString("latin1").match(/[^]{1,777}/g);
  const pieces = texts.map((each) => Buffer.from(each, "latin1"));
  console.log(pack, packed.map(({ length }) => length).join(), packing.bytesWritten, pieces.length);
  const unpacked = await buffer(Readable.from(pieces).pipe(unpacking));
  console.log(unpacked.equals(Buffer.concat([large, Buffer.from("text")])));
}

// What was written is there as soon as it is flushed.
const flushed = zlib.createDeflate({ level: 9 });
const parts = [];
flushed.on("data", (part) => parts.push(part.toString("hex")));
for (const kind of [[], [constants.Z_SYNC_FLUSH], [constants.Z_PARTIAL_FLUSH]]) {
  flushed.write("some text");
  await new Promise((done) => flushed.flush(...kind, done));
  console.log(parts.splice(0).join("|"));
}
await new Promise((done) => flushed.params(0, constants.Z_DEFAULT_STRATEGY, done));
flushed.write("other text");
await new Promise((done) => flushed.flush(() => done(console.log("flushed", parts.splice(0).join("|")))));
flushed.end();
await once(flushed, "end");
console.log(parts.join("|"), flushed.bytesWritten);

// A stream that is reset begins anew.
const again = zlib.createGzip();
const all = buffer(again);
await new Promise((done) => again.write("thrown away", done));
again.reset();
again.end("kept");
console.log(await all);
const amid = zlib.createDeflate();
amid.write("busy");
try {
  amid.reset();
  console.log("was reset");
} catch (error) {
  console.log(error.message, error.code);
}

// A stream that is closed or destroyed amid work has no more results.
for (const [name, act] of Object.entries({
  close: (stream) => stream.close(() => console.log("is closed")),
  destroy: (stream) => stream.destroy(),
  "destroy with an error": (stream) => stream.destroy(new Error("of the program")),
})) {
  const stream = zlib.createGzip();
  for (const event of ["data", "end", "error", "close"]) {
    stream.on(event, (given) => console.log(name, event, given?.message));
  }
  const writes = [["written", large], ["more", "more"]].map(([which, data]) => new Promise((done) => {
    stream.write(data, (error) => done(console.log(name, which, error?.code)));
  }));
  act(stream);
  await Promise.all(writes);
}

// Bad data, data that ends too soon, more data behind the end.
const packed = zlib.gzipSync("text");
for (const [name, data] of Object.entries({
  bad: [Buffer.from("not packed")], "bad later": [packed.subarray(0, 12), Buffer.alloc(9, 255)],
  short: [packed.subarray(0, 20)], twice: [packed, packed], "with rest": [packed, Buffer.from("rest")],
  none: [Buffer.alloc(0)],
})) {
  const stream = zlib.createGunzip();
  for (const event of ["data", "end", "error"]) {
    stream.on(event, (given) => console.log(name, event, String(given), given?.code, given?.errno));
  }
  for (const each of data) stream.write(each);
  stream.end();
  await new Promise((done) => stream.on("close", done));
}
await pipeline(Readable.from([Buffer.from("bad")]), zlib.createBrotliDecompress(), async function* (source) {
  yield* source;
}, zlib.createGzip()).catch(({ code }) => console.log("a pipeline", code));
const iterated = [];
for await (const part of zlib.createInflate().end(zlib.deflateSync(large))) iterated.push(part.length);
console.log(iterated.join());

// A callback has the surroundings in which its stream was made; a tick and a microtask come before it.
const storage = new AsyncLocalStorage();
const made = storage.run("of the stream", () => zlib.createGzip());
await new Promise((done) => {
  storage.run("of the write", () => made.write("text", () => done(console.log("written in", storage.getStore()))));
  process.nextTick(() => console.log("tick"));
  queueMicrotask(() => console.log("microtask"));
});
made.on("data", (part) => console.log(part.length, storage.getStore())).end();
await once(made, "end");
const packing = new Blob(["text ".repeat(1_000)]).stream().pipeThrough(new CompressionStream("gzip"));
console.log((await text(packing.pipeThrough(new DecompressionStream("gzip")))).length);
const bad = new Blob(["bad"]).stream().pipeThrough(new DecompressionStream("deflate"));
console.log(await text(bad).catch(({ name, code }) => [name, code]));
