// A program removes all listeners of a port at once. The port still keeps its thread alive, and its messages are lost.
import { MessageChannel, receiveMessageOnPort } from "node:worker_threads";

const { port1, port2 } = new MessageChannel();
const sent = async (value) => {
  port1.postMessage(value);
  // The message comes before the immediate, also if the timer is late.
  await new Promise((done) => setTimeout(() => setImmediate(done), 20));
};
port2.on("message", (value) => console.log("first", value));
await sent(1);
port2.removeAllListeners("message");
console.log(port2.hasRef());
await sent("lost");
console.log(receiveMessageOnPort(port2));
port2.on("message", (value) => console.log("again", value));
await sent(2);
port2.removeAllListeners();
port2.unref();
port2.once("message", (value) => console.log("once", value));
console.log(port2.hasRef());
await sent(3);
console.log(port2.hasRef());
