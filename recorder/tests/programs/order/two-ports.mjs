// Messages over two ports: each port keeps its own order, whichever of them comes first.
import { MessageChannel } from "node:worker_threads";

const channels = { left: new MessageChannel(), right: new MessageChannel() };
const heard = { left: [], right: [] };
for (const number of [1, 2, 3]) {
  for (const { port1 } of Object.values(channels)) port1.postMessage(number);
}
for (const [name, { port2 }] of Object.entries(channels)) {
  port2.on("message", (number) => {
    heard[name].push(number);
    if (number === 3) port2.close();
  });
}
process.on("exit", () => console.log(heard));
