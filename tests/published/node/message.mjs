// Node's `postMessageToThread`: each of two workers sends the other a message. When both promises are settled, both
// messages have been delivered.

import { nodeOf } from "./threads.mjs";

const { Worker } = nodeOf({}).require("internal/worker");
const [first, second] = [0, 1].map(() => new Worker(new URL("message-worker.mjs", import.meta.url)));

/** Awaits a message of each worker. */
const both = () => Promise.all([first, second].map((worker) => new Promise((done) => worker.once("message", done))));

await both();
first.postMessage(second.threadId);
second.postMessage(first.threadId);
await both();
first.postMessage("end");
second.postMessage("end");
