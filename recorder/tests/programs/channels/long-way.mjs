// Wrong: the last worker takes for granted that a message over another worker is later than the direct one.
import { setImmediate as soon } from "node:timers/promises";
import { MessageChannel, Worker, isMainThread, parentPort, workerData } from "node:worker_threads";

if (isMainThread) {
  const { port1, port2 } = new MessageChannel();
  const self = new URL(import.meta.url);
  const between = new Worker(self, { workerData: { next: port1 }, transferList: [port1] });
  const last = new Worker(self, { workerData: { port: port2 }, transferList: [port2] });
  last.postMessage("directly");
  between.postMessage("the long way");
} else if (workerData.next !== undefined) {
  parentPort.once("message", async (text) => {
    for (let turn = 0; turn < 4; turn += 1) await soon();
    workerData.next.postMessage(text);
  });
} else {
  let first;
  for (const port of [parentPort, workerData.port]) {
    port.once("message", (text) => {
      first ??= text;
      if (first !== "directly") throw new Error(`first came: ${first}`);
    });
  }
}
