// What can't be transferred, and how ports and channels can't be made. A port that is sent to itself is lost.
import { once } from "node:events";
import { inspect } from "node:util";
import { MessageChannel, MessagePort, Worker } from "node:worker_threads";

const tried = (name, act) => {
  try {
    console.log(name, act());
  } catch (error) {
    const { name: kind, code, message } = error;
    console.log(name, kind, code, message, error instanceof DOMException);
  }
};
tried("a channel", () => MessageChannel());
tried("a port", () => MessagePort());
tried("a new port", () => new MessagePort());

const bytes = new ArrayBuffer(8);
const { port1, port2 } = new MessageChannel();
const closed = new MessageChannel();
closed.port2.ref();
closed.port1.close();
tried("itself", () => port1.postMessage(0, [bytes, port1]));
tried("a port that is being closed", () => port1.postMessage(0, [bytes, closed.port1]));
tried("a thread that gets one", () => new Worker("", { eval: true, transferList: [closed.port1] }));
await once(closed.port2, "close");
await new Promise((done) => setTimeout(done, 10));
for (const port of [closed.port1, closed.port2]) {
  tried("a closed port", () => port1.postMessage(0, [bytes, port]));
  tried("a closed port to itself", () => port.postMessage(0, [bytes, port]));
  console.log(inspect(port).includes("active: false"));
}
tried("nothing", () => closed.port1.postMessage(0));
console.log(bytes.byteLength, inspect(port1).includes("active: true"));
const iterating = (iterator) => ({ [Symbol.iterator]: () => iterator });
const lists = [
  null, [], {}, () => {}, 0, "text", Symbol.iterator, new Set(), { transfer: undefined }, { transfer: null },
  { transfer: 0 }, { transfer: {} }, { transfer: iterating({}) }, { transfer: iterating({ next: 42 }) },
  { transfer: iterating({ next: () => ({ done: true }) }) }, { [Symbol.iterator]: 1 }, iterating(1),
];
lists.forEach((list, at) => tried(`list ${at}`, () => port1.postMessage(at, list)));
port2.on("message", (message) => console.log("got", message));
tried("the last", () => port1.postMessage("last"));
await once(port2, "message");
await new Promise((done) => setTimeout(done, 10));
console.log(Object.getOwnPropertyNames(MessagePort.prototype).sort().join(" "));

process.on("warning", ({ message }) => console.log(message));
port1.on("message", (message) => console.log("never", message));
const lost = new MessageChannel();
lost.port2.ref();
tried("its other side", () => port1.postMessage(0, [bytes, port2, lost.port1]));
tried("its other side once more", () => port1.postMessage(0, [port2]));
console.log(bytes.byteLength);
await Promise.all([once(port1, "close"), once(lost.port2, "close")]);
tried("nobody", () => port1.postMessage(1));
