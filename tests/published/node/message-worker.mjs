// One of two workers. Main says to which thread it sends its message.

import { process, program, require } from "./thread.mjs";

const { postMessageToThread } = require("internal/worker/messaging");
const { parentPort } = program;

const received = [];
process.on("workerMessage", (value) => received.push(value));

parentPort.on("message", async (message) => {
  if (message === "end") {
    if (received.join() !== "hello") throw new Error(`received: ${received.join()}`);
    parentPort.close();
    return;
  }
  await postMessageToThread(message, "hello");
  parentPort.postMessage("sent");
});
parentPort.postMessage("ready");
