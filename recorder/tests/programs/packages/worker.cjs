// It requires the same package, opens the gate and says which form of the package it has.
const { parentPort, workerData } = require("node:worker_threads");
const { form, Gate } = require("small-gate");

new Gate(workerData).open();
parentPort.postMessage({ form });
