// What listeners of a port throw and reject, what they get of an event, and what is assigned to `onmessage`.
import { MessageChannel } from "node:worker_threads";

process.on("uncaughtException", ({ message }, origin) => console.log(origin, message));
const { port1, port2 } = new MessageChannel();
console.log(port2.hasRef(), port2.onmessage);
port2.onmessage = null;
console.log(port2.hasRef(), port2.listenerCount("message"));
port2.onmessage = undefined;
const shown = (value) => (typeof value === "string" ? value : "a port");
port2.on("message", (value) => {
  console.log("throws", shown(value));
  throw new Error(`thrown after ${shown(value)}`);
});
port2.on("message", async (value) => {
  console.log("rejects", shown(value));
  throw new Error(`rejected after ${shown(value)}`);
});
port2.addEventListener("message", function listener({ data, ports, target }) {
  console.log("event", shown(data), ports.length, ports[0] === data, target === port2, this === port2);
  if (ports.length > 0) port2.close();
});
const signal = AbortSignal.abort();
port2.addEventListener("message", () => console.log("never"), { signal });
port2.addEventListener("message", (event) => event.stopImmediatePropagation());
port2.on("message", () => console.log("never, since it is stopped"));
console.log(port2.emit("message", "emitted"), port2.emit("other", "not heard"));
const other = new MessageChannel();
port1.postMessage("one");
port1.postMessage(other.port1, [other.port1]);
port2.on("close", (...given) => console.log("closed", given.map((each) => each?.type)));
port2.addEventListener("close", (event) => console.log("closed", event.type, event.target === port2));
