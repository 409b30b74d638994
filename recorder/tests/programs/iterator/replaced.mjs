// Right: the workers replace how the language goes through lists, and only their own code would call that. One ends
// by itself, one is terminated, one exits.
import { MessageChannel, Worker } from "node:worker_threads";

const CODES = { "ends": 0, "is terminated": 1, "exits": 3 };
const calls = new Int32Array(new SharedArrayBuffer(4));
for (const [way, expected] of Object.entries(CODES)) {
  const worker = new Worker(new URL("replaces.cjs", import.meta.url), { workerData: { calls, way } });
  const { port1, port2 } = new MessageChannel();
  worker.postMessage({ port: port2, list: [1, 2, 3] }, [port2]);
  port1.on("message", (sum) => {
    if (sum !== 6) throw new Error(`the sum is ${sum}`);
    if (way === "is terminated") worker.terminate();
  });
  const code = await new Promise((done) => worker.once("exit", done));
  port1.close();
  if (code !== expected) throw new Error(`one that ${way} has the code ${code}`);
}
const made = Atomics.load(calls, 0);
if (made !== 0) throw new Error(`what the workers replaced was called ${made} times`);
