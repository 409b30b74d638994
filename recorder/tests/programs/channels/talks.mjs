// It adds 1 to each number that comes from the other worker, until it is 6.
import { parentPort } from "node:worker_threads";

parentPort.once("message", ({ port, begins }) => {
  port.on("message", (number) => {
    if (number < 6) port.postMessage(number + 1);
    if (number < 5) return;
    if (number === 6) parentPort.postMessage(number);
    port.close();
  });
  if (begins) port.postMessage(1);
});
