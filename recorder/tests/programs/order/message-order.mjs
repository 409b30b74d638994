// Messages of one port come in order, each a task of its own: microtasks and ticks run between them.
import { MessageChannel } from "node:worker_threads";

const { port1, port2 } = new MessageChannel();
for (let number = 1; number <= 3; number += 1) port1.postMessage(number);
port2.on("message", (number) => {
  console.log("message", number);
  queueMicrotask(() => console.log("microtask", number));
  process.nextTick(() => console.log("tick", number));
  if (number === 3) port2.close();
});
port1.on("close", () => console.log("closed"));
port1.ref();
console.log("main");
