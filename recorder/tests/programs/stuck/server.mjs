// Right, but it never ends by itself: its worker listens until someone presses Ctrl-C.
import { Worker } from "node:worker_threads";

const worker = new Worker(new URL("./serves.mjs", import.meta.url));
worker.postMessage(20);
worker.on("message", (answer) => {
  if (answer !== 21) throw new Error(`the answer is ${answer}`);
  console.log("ready");
});
