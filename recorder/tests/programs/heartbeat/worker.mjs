// It beats each 100 ms, sixty times.
import { parentPort } from "node:worker_threads";

let left = 60;
const beats = setInterval(() => {
  left -= 1;
  parentPort.postMessage(left);
  if (left === 0) clearInterval(beats);
}, 100);
