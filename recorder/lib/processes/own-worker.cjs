// What a worker of the recorder begins with. It waits for its data, evaluates the modules that are in it, and calls
// what the last one exports as `main`, if it does. Some modules may come ahead of the data. This is a CommonJS module,
// since such a one is loaded sooner.
"use strict";

const { workerData } = require("node:worker_threads");
const { evaluated } = require("./own-modules.cjs");

const { port } = workerData;
/** @type {Record<string, any>} what was evaluated */
const modules = {};

/** @param {{ ahead?: import("./own-modules.cjs").OwnModule[] }} data */
function take(data) {
  if (data.ahead !== undefined) {
    port.once("message", take);
    evaluated(data.ahead, modules);
    return;
  }
  Object.assign(workerData, data);
  // What it throws later ends the worker.
  void evaluated(workerData.modules, modules).main?.((/** @type {string} */ url) => import(url));
}

port.once("message", take);
