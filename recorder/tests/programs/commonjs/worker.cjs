// It waits until the word is 1, and says who it is.
const { basename } = require("node:path");
const { parentPort, workerData } = require("worker_threads");

const { words, waits } = workerData;
if (waits === "in a loop") while (Atomics.load(words, 0) !== 1) Atomics.wait(words, 0, 0);
else if (Atomics.load(words, 0) !== 1) Atomics.wait(words, 1, 0);
parentPort.postMessage({ file: basename(__filename), given: process.argv[2] });
