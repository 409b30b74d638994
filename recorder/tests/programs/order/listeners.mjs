// on, once, addEventListener and onmessage of one port, in order, and what they get.
import { MessageChannel } from "node:worker_threads";

const { port1, port2 } = new MessageChannel();
port2.addEventListener("message", ({ type, data, target }) => {
  console.log("addEventListener", type, data, target === port2);
});
port2.onmessage = ({ data, ports }) => console.log("onmessage", data, ports.length);
port2.on("message", (data) => console.log("on", data));
port2.once("message", (data) => console.log("once", data));
const off = () => console.log("never");
port2.on("message", off).off("message", off);
port2.addEventListener("message", { handleEvent: ({ data }) => console.log("handleEvent", data) }, { once: true });
console.log(port2.listenerCount("message"), port2.eventNames());
port2.on("message", (data) => { if (data === 2) port2.close(); });
port1.postMessage(1);
port1.postMessage(2);
