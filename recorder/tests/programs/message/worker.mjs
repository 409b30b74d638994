// It squares the first number whenever it is asked.
import { parentPort, workerData as data } from "node:worker_threads";

parentPort.on("message", (text) => {
  if (text === "end") {
    parentPort.close();
    return;
  }
  data[1] = data[0] * data[0];
  parentPort.postMessage("done");
});
