// zlib's functions call back with what node's own zlib has made, or with its errors, in the surroundings of the call.
import { AsyncLocalStorage } from "node:async_hooks";
import { promisify } from "node:util";
import zlib from "node:zlib";

const text = "text ".repeat(50);
const shown = (value) => (value instanceof Error ? [value.name, value.code, value.errno, value.message].join() : value);
const noted = (name, ...given) => new Promise((done) => {
  try {
    zlib[name](...given, (...values) => {
      console.log(name, ...values.map(shown));
      done(values[1]);
    });
  } catch (error) {
    console.log(name, "throws", shown(error));
    done();
  }
});
const pairs = [["gzip", "gunzip"], ["deflate", "inflate"], ["deflateRaw", "inflateRaw"], ["gzip", "unzip"],
  ["brotliCompress", "brotliDecompress"], ["zstdCompress", "zstdDecompress"]];
for (const [pack, unpack] of pairs.filter(([name]) => name in zlib)) {
  const packed = await noted(pack, text);
  console.log((await noted(unpack, packed)).toString() === text);
  await noted(unpack, Buffer.from("not packed"));
  await noted(unpack, packed.subarray(0, -3));
  await noted(unpack, Buffer.concat([packed, Buffer.from("more")]));
  await noted(pack, text, { level: 1 });
  await noted(pack, new ArrayBuffer(9));
  await noted(pack, new Uint16Array(9));
  await noted(pack, "");
  await noted(pack, 5);
}
await noted("gzip", "x", { level: 99 });
await noted("gunzip", zlib.gzipSync(text), { maxOutputLength: 8 });
await noted("gzip");
await noted("inflate", zlib.deflateSync(text, { dictionary: Buffer.from("text") }));
const dictionary = Buffer.from("text");
await noted("inflate", zlib.deflateSync(text, { dictionary }), { dictionary });
console.log(await promisify(zlib.gzip)("x"), await promisify(zlib.gunzip)("x").catch(shown));
console.log(zlib.gzip.name, zlib.gzip.length);
const large = Buffer.from(Array.from({ length: 300_000 }, (_, at) => (at * at) % 251));
console.log((await promisify(zlib.inflate)(await promisify(zlib.deflate)(large))).equals(large));
const shared = new Uint8Array(new SharedArrayBuffer(8)).fill(7);
console.log(zlib.gunzipSync(await promisify(zlib.gzip)(shared)));
const storage = new AsyncLocalStorage();
const order = [];
await new Promise((done) => {
  storage.run("of the call", () => zlib.deflate(text, () => done(order.push(storage.getStore()))));
  process.nextTick(() => order.push("tick"));
  queueMicrotask(() => order.push("microtask"));
});
console.log(order.join());
