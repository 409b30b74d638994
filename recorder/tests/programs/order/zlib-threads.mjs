// Threads pack and unpack by streams, side by side, and post what comes of it.
import { once } from "node:events";
import { Readable } from "node:stream";
import { buffer } from "node:stream/consumers";
import { Worker, isMainThread, parentPort, workerData } from "node:worker_threads";
import zlib from "node:zlib";

const file = new URL(import.meta.url);
if (isMainThread) {
  const workers = [1, 2, 3].map((level) => new Worker(file, { workerData: level }));
  const answers = await Promise.all(workers.map((worker) => once(worker, "message")));
  for (const [{ level, packed, order }] of answers) {
    const unpacked = await buffer(Readable.from([packed]).pipe(zlib.createGunzip()));
    console.log(level, packed.length, unpacked.length, order.join());
  }
  const stopped = new Worker(file, { workerData: 0 });
  await once(stopped, "message");
  console.log("stopped with", await stopped.terminate());
} else if (workerData === 0) {
  parentPort.postMessage("begun");
  const stream = zlib.createGzip().resume();
  for (;;) await new Promise((done) => stream.write("text", done));
} else {
  const order = [];
  const stream = zlib.createGzip({ level: workerData });
  stream.write("text ".repeat(1_000), () => order.push("written"));
  stream.end(() => order.push("ended"));
  const packed = await buffer(stream);
  parentPort.postMessage({ level: workerData, packed, order });
}
