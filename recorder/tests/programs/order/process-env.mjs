// What is set in process.env is a text, also for a worker that shares it.
import { SHARE_ENV, Worker, isMainThread, parentPort } from "node:worker_threads";

if (isMainThread) {
  process.env.NUMBER = 1;
  process.env.NOTHING = undefined;
  process.env.GONE = "gone";
  console.log(typeof process.env.NUMBER, process.env.NOTHING, delete process.env.GONE, "GONE" in process.env);
  try {
    process.env.SYMBOL = Symbol("never");
  } catch (error) {
    console.log(error.name);
  }
  const worker = new Worker(new URL(import.meta.url), { env: SHARE_ENV });
  worker.on("message", (line) => console.log(...line));
  // Nothing is changed by this.
  console.log(delete process.env.GONE, process.env.NUMBER = 1);
} else {
  parentPort.postMessage([typeof process.env.NUMBER, process.env.NOTHING, process.env.GONE, "NUMBER" in process.env]);
}
