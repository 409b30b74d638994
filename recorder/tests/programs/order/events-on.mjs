// events.on iterates over events that come at once and later, and ends by an abort.
import { EventEmitter, on } from "node:events";
import { MessageChannel } from "node:worker_threads";

const emitter = new EventEmitter();
const controller = new AbortController();
process.nextTick(() => emitter.emit("number", 1));
setImmediate(() => {
  emitter.emit("number", 2);
  emitter.emit("number", 3, "more");
});
try {
  for await (const values of on(emitter, "number", { signal: controller.signal })) {
    console.log(values);
    if (values[0] === 3) setImmediate(() => controller.abort());
  }
} catch ({ name }) {
  console.log(name);
}
const { port1, port2 } = new MessageChannel();
for (const text of ["a", "b"]) port1.postMessage(text);
for await (const [text] of on(port2, "message")) {
  console.log(text);
  if (text === "b") break;
}
port2.close();
