// A port whose last listener for messages is taken off keeps its messages for the next listener.
import { MessageChannel } from "node:worker_threads";

const { port1, port2 } = new MessageChannel();
const heard = (text) => {
  console.log("heard", text);
  port2.off("message", heard);
  port1.postMessage("two");
  console.log(port2.hasRef());
  setImmediate(() => setImmediate(() => {
    console.log("immediates");
    port2.once("message", (later) => console.log("once", later));
    console.log(port2.hasRef());
  }));
};
port2.on("message", heard);
port1.postMessage("one");
process.on("exit", (status) => console.log("exit", status));
