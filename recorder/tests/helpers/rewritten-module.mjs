// What modules' functions say as they are written, and as `--all` rewrites them.

import { once } from "node:events";
import { mkdirSync } from "node:fs";
import { join } from "node:path";
import { pathToFileURL } from "node:url";
import { Worker } from "node:worker_threads";
import graphFlags from "../../lib/program/node/graph-flags.cjs";
import { fileIn } from "./common.mjs";

/**
 * @typedef {object} BothSaid
 * @property {string[]} written what a module says as it is written
 * @property {string[]} rewritten and as it is rewritten
 * @property {string} [problem] why it couldn't be rewritten or loaded
 */

/** @param {string} folder @param {string | string[]} text @returns {string} the URL of its file */
function written(folder, text) {
  mkdirSync(folder);
  const [own, ...others] = [text].flat();
  others.forEach((other, at) => fileIn(folder, `${"bcdef"[at]}.mjs`, other));
  return pathToFileURL(fileIn(folder, "a.mjs", own)).href;
}

/**
 * @param {string} folder
 * @param {(string | string[])[]} texts of modules; each exports a function that is given one that says something.
 * Behind a module come those that it imports, which are b.mjs, c.mjs and so on
 * @returns {Promise<BothSaid[]>}
 */
export async function saidByBoth(folder, texts) {
  const urls = texts.map((text, at) => written(join(folder, `${at}`), text));
  const execArgv = [...graphFlags.GRAPH_FLAGS, "--no-warnings"];
  const worker = new Worker(new URL("./rewritten-worker.mjs", import.meta.url), { workerData: { urls }, execArgv });
  const [results] = await once(worker, "message");
  return results;
}
