// A port that isn't started keeps its messages; a listener of addEventListener starts it, and so does start().
import { MessageChannel } from "node:worker_threads";

const { port1, port2 } = new MessageChannel();
port1.postMessage("one");
port1.postMessage("two");
setImmediate(() => setImmediate(() => {
  console.log("immediates");
  port2.addEventListener("message", ({ data }) => {
    console.log("listener", data);
    if (data === "two") port2.close();
  });
  port2.start();
}));
