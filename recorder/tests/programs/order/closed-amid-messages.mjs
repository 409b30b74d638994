// A port that its own listener closes, or what the listener has done at once, still gets the messages that wait there.
// It gets none if the listener throws then, or if something else closes it.
import { once } from "node:events";
import { MessageChannel, receiveMessageOnPort } from "node:worker_threads";

process.on("uncaughtException", ({ message }) => console.log(message));

const fail = () => {
  throw new Error("thrown");
};
const CLOSES = {
  "at once": ({ port2 }) => port2.close(),
  "between two messages": ({ port1, port2 }) => {
    port1.postMessage("before");
    port2.close();
    port1.postMessage("behind");
    port2.postMessage("never");
  },
  "in a microtask": ({ port2 }) => void Promise.resolve().then(() => port2.close()),
  "in a tick": ({ port2 }) => process.nextTick(() => port2.close()),
  "and takes a message": ({ port2 }) => {
    port2.close();
    console.log(receiveMessageOnPort(port2));
  },
  "and listens no more": ({ port2 }) => {
    port2.close();
    port2.removeAllListeners("message");
  },
  "and throws": ({ port2 }) => {
    port2.close();
    fail();
  },
  "and throws in a tick": ({ port2 }) => {
    port2.close();
    process.nextTick(fail);
  },
};
for (const [name, close] of Object.entries(CLOSES)) {
  console.log(name);
  const channel = new MessageChannel();
  const { port1, port2 } = channel;
  port2.on("message", (message) => {
    console.log("got", message);
    if (message === 1) close(channel);
  });
  port1.on("message", (message) => console.log("never", message));
  for (let at = 0; at < 4; at += 1) port1.postMessage(at);
  await once(port2, "close");
  await once(port1, "close");
}

console.log("before a message");
const other = new MessageChannel();
other.port2.on("message", (message) => console.log("never", message));
other.port1.postMessage(0);
other.port2.close();
await once(other.port2, "close");

console.log("amid a thousand");
let count = 0;
const many = new MessageChannel();
many.port2.on("message", () => {
  count += 1;
  many.port2.close();
  many.port1.postMessage(count);
});
many.port1.postMessage(0);
await once(many.port2, "close");
console.log(count);
