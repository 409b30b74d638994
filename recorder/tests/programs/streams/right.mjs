// Right: numbers come from a worker by messages, go through a pipeline, and the end is announced in the same port.
import { Readable, Transform } from "node:stream";
import { pipeline } from "node:stream/promises";
import { Worker } from "node:worker_threads";

const worker = new Worker(new URL("./numbers.mjs", import.meta.url));
const numbers = new Readable({ objectMode: true, read() {} });
worker.on("message", (number) => numbers.push(number));
const doubles = new Transform({
  objectMode: true,
  transform(number, encoding, done) { setImmediate(done, null, number * 2); },
});
let sum = 0;
await pipeline(numbers, doubles, async (source) => { for await (const number of source) sum += number; });
if (sum !== 30) throw new Error(`the sum is ${sum}`);
