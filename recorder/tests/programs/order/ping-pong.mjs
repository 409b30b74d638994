// Two ports in one thread answer each other, and main's own messages go between.
import { MessageChannel } from "node:worker_threads";

const { port1, port2 } = new MessageChannel();
port1.on("message", (number) => {
  console.log("port 1 gets", number);
  if (number < 4) port1.postMessage(number + 1);
  else port1.close();
});
port2.on("message", (number) => {
  console.log("port 2 gets", number);
  port2.postMessage(number + 1);
});
port2.on("close", () => console.log("port 2 is closed"));
port1.postMessage(1);
