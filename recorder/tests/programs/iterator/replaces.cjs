"use strict";
const { parentPort, workerData } = require("node:worker_threads");

const { calls, way } = workerData;
const { add } = Atomics;
const count = () => void add(calls, 0, 1);

Object.getPrototypeOf([][Symbol.iterator]()).next = count;
Object.getPrototypeOf(new Map().entries()).next = count;
Array.prototype[Symbol.iterator] = count;
Map.prototype[Symbol.iterator] = count;
Map.prototype.entries = count;
Object.keys = count;

parentPort.once("message", ({ port, list }) => {
  setTimeout((first, second) => setImmediate(() => {
    port.postMessage(first + second + list[2]);
    if (way === "exits") process.exit(3);
    if (way === "is terminated") port.on("message", () => {});
    else port.close();
  }), 1, list[0], list[1]);
});
