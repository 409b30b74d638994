// The thread that has the simulator's module search a file of automata. Its work is one: it reports, and ends.

import { workerData } from "node:worker_threads";
import { ModuleSimulator } from "../simulator/module.mjs";

/**
 * @typedef {object} ProvedSearchWorkerData
 * @property {string} text of the file
 * @property {import("../simulator/module.mjs").SearchJob} job
 * @property {number} room how many bytes the output may have
 */

/** Does its work. */
export function main() {
  const { job, port, room, text } =
    /** @type {ProvedSearchWorkerData & { port: import("node:worker_threads").MessagePort }} */ (workerData);
  try {
    port.postMessage({ ended: new ModuleSimulator().search(job, text, room) });
  } catch (problem) {
    port.postMessage({ failed: /** @type {Error} */ (problem).message });
  }
  port.close();
}
