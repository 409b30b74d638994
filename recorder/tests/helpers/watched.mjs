// Tests whose cases run in a watched realm, in a worker of their own.

import assert from "node:assert/strict";
import { test } from "node:test";
import { Worker } from "node:worker_threads";

/**
 * Makes a test of each case that a module exports.
 * @param {string} name of a module in `agents`
 */
export async function testWatched(name) {
  /** @param {string} file */
  const path = (file) => new URL(`../agents/${file}.mjs`, import.meta.url);
  const worker = new Worker(path("watched-worker"), { workerData: { module: path(name).href } });
  /** @type {{ name: string, problem?: string }[]} */
  const results = await new Promise((done, failed) => {
    worker.on("message", done);
    worker.on("error", failed);
  });
  await worker.terminate();
  for (const result of results) test(result.name, () => assert.equal(result.problem, undefined));
}
