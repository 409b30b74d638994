// The object of a port that is transferred is closed. Whatever stands for the port then goes on with its messages.
import { once } from "node:events";
import { MessageChannel, MessagePort } from "node:worker_threads";

/** What the other side gets, which stays alive behind its first message. */
const first = async (port) => {
  const [value] = await once(port, "message");
  port.ref();
  return value;
};

const cloned = new MessageChannel();
const closed = once(cloned.port1, "close");
cloned.port2.postMessage("before");
const { deep: [clone] } = structuredClone({ deep: [cloned.port1] }, { transfer: [cloned.port1] });
console.log(clone !== cloned.port1, clone instanceof MessagePort, cloned.port1.postMessage("lost"));
try {
  structuredClone(1, { transfer: [cloned.port1] });
} catch ({ name, message }) {
  console.log(name, message);
}
await closed;
console.log("the object that was cloned is closed");
cloned.port2.postMessage("behind");
clone.on("message", (text) => {
  console.log("the clone has", text);
  if (text === "behind") clone.postMessage("back");
});
console.log("the other side has", await first(cloned.port2));
clone.close();
await once(cloned.port2, "close");

const sent = new MessageChannel();
const outer = new MessageChannel();
const gone = once(sent.port1, "close");
outer.port1.postMessage(sent.port1, [sent.port1]);
await gone;
console.log("the object that was sent is closed");
const port = await first(outer.port2);
port.postMessage("hello");
console.log("the other side has", await first(sent.port2));
port.close();
outer.port1.close();
await Promise.all([once(sent.port2, "close"), once(outer.port2, "close")]);
