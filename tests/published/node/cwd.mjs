// Node's cached `process.cwd()`: main changes the directory and says so to a worker, which asks for it.

import { setEnvironmentData } from "node:worker_threads";
import { systemOf } from "./directory.mjs";
import { nodeOf } from "./threads.mjs";

const word = new Int32Array(new SharedArrayBuffer(4));
setEnvironmentData("directory", word);
const { require, process } = nodeOf({ own: systemOf(word) });
const { Worker } = require("internal/worker");

const worker = new Worker(new URL("cwd-worker.mjs", import.meta.url));
process.chdir("/new");
worker.postMessage("changed");
