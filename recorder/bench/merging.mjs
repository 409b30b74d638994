// What modules leave with merged moments and without, as a thread of its own learns it.

import { Worker } from "node:worker_threads";
import graphFlags from "../lib/program/node/graph-flags.cjs";

/** @param {object} workerData of `merging-worker.mjs` @returns {Promise<any[]>} a result for each module */
export const compared = (workerData) => new Promise((done, fail) => {
  const execArgv = [...graphFlags.GRAPH_FLAGS, "--no-warnings"];
  const worker = new Worker(new URL("./merging-worker.mjs", import.meta.url), { workerData, execArgv });
  worker.on("message", done);
  worker.on("error", fail);
});
