// Wrong: the numbers come by one port and the word "end" by another, which may be faster.
import { Readable } from "node:stream";
import { MessageChannel, Worker } from "node:worker_threads";

const { port1, port2 } = new MessageChannel();
const options = { workerData: port2, transferList: [port2] };
const worker = new Worker(new URL("./numbers-and-end.mjs", import.meta.url), options);
const numbers = new Readable({ objectMode: true, read() {} });
worker.on("message", (number) => numbers.push(number));
port1.once("message", () => numbers.push(null));
let sum = 0;
for await (const number of numbers) sum += number;
if (sum !== 6) throw new Error(`the sum is ${sum}`);
