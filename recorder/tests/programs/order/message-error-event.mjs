// Listeners for messageerror and for events of a port that are dispatched by hand.
import { MessageChannel } from "node:worker_threads";

const { port1, port2 } = new MessageChannel();
port2.on("messageerror", ({ type, data }) => console.log("on", type, data));
port2.onmessageerror = ({ type, data }) => console.log("onmessageerror", type, data);
port2.addEventListener("messageerror", ({ target }) => console.log("addEventListener", target === port2));
console.log(port2.dispatchEvent(new MessageEvent("messageerror", { data: "broken" })));
port2.on("message", ({ type, data }) => console.log("message", type, data));
port2.dispatchEvent(new MessageEvent("message", { data: "by hand" }));
port1.on("close", () => console.log("closed"));
port1.ref();
port2.close();
