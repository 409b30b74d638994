// Right: main listens for the second message when it has read a file. Until then the message waits.
import { once } from "node:events";
import { readFile } from "node:fs/promises";
import { Worker } from "node:worker_threads";

const worker = new Worker(new URL("./says-two.mjs", import.meta.url));
const [first] = await once(worker, "message");
await readFile(new URL(import.meta.url));
const [second] = await once(worker, "message");
if (first + second !== "ab") throw new Error(`messages ${first} and ${second}`);
worker.postMessage("end");
