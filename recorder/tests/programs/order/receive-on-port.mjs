// receiveMessageOnPort takes messages at once, in order, and what it takes is no event any more.
import { MessageChannel, receiveMessageOnPort } from "node:worker_threads";

const { port1, port2 } = new MessageChannel();
console.log(receiveMessageOnPort(port2));
for (const value of ["a", undefined, "c", "d"]) port1.postMessage(value);
console.log(receiveMessageOnPort(port2), receiveMessageOnPort(port2));
port2.on("message", (text) => {
  console.log("message", text);
  if (text === "d") port2.close();
});
console.log(receiveMessageOnPort(port2));
port1.on("close", () => {
  console.log("closed");
  port1.postMessage("nobody gets this");
});
port1.ref();
try {
  receiveMessageOnPort({});
} catch ({ name, code }) {
  console.log(name, code);
}
