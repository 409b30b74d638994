// Messages that the first thread can't read: a Worker, whose stack is larger, has put too many objects into each other.
import { once } from "node:events";
import { MessageChannel, Worker, receiveMessageOnPort } from "node:worker_threads";

const { port1, port2 } = new MessageChannel();
const { port1: kept, port2: lost } = new MessageChannel();
const channel = new BroadcastChannel("lists");
const worker = new Worker(`const { parentPort, workerData: { port, lost } } = require("node:worker_threads");
const channel = new BroadcastChannel("lists");
function listOf(last) {
  let list = last;
  for (let at = 0; at < 6_000; at += 1) list = { at, next: list };
  return list;
}
parentPort.on("message", (way) => {
  if (way === "parent") parentPort.postMessage(listOf(null));
  if (way === "port") port.postMessage(listOf(null));
  if (way === "channel") channel.postMessage(listOf(null));
  if (way === "lost") parentPort.postMessage(listOf(lost), [lost]);
  parentPort.postMessage("sent");
  if (way === "close") { parentPort.close(); channel.close(); }
});`, { eval: true, workerData: { port: port2, lost }, transferList: [port2, lost] });

worker.on("messageerror", ({ name, message }) => console.log("worker", name, message));
worker.postMessage("parent");
console.log(await once(worker, "message"));

worker.postMessage("port");
console.log(await once(worker, "message"));
try {
  receiveMessageOnPort(port1);
} catch ({ name, message }) {
  console.log("receive", name, message);
}
console.log("left", receiveMessageOnPort(port1));

port1.onmessageerror = ({ type, data }) => console.log("port", type, data.name, data.message);
port1.on("messageerror", ({ name }) => console.log("port, again", name));
port1.on("message", () => console.log("never"));
worker.postMessage("port");
await once(port1, "messageerror");

channel.onmessage = () => console.log("never");
worker.postMessage("channel");
const event = await new Promise((done) => { channel.onmessageerror = done; });
console.log("channel", event.type, event.data.name);
channel.close();

// While nobody listens to a Worker, its messages wait.
worker.on("message", () => {});
kept.on("message", () => console.log("never"));
worker.postMessage("lost");
await once(kept, "close");
console.log("the port in the message was closed");

worker.postMessage("close");
port1.close();
