// Cases for functions that need node's inside. They run in a thread that has it, and each is a test.

import { test } from "node:test";
import { Worker, isMainThread, parentPort, workerData } from "node:worker_threads";
import { GRAPH_FLAGS } from "../../lib/program/node/graph-flags.cjs";

/**
 * @param {URL} url of a module that exports `cases`, an object of functions by the tests' names
 */
export async function testInside(url) {
  const thread = new Worker(new URL(import.meta.url), { execArgv: [...GRAPH_FLAGS], workerData: url.href });
  /** @returns {Promise<any>} the next message: first the names of the cases, and then each case's error */
  const next = () => new Promise((done, fail) => thread.once("message", done).once("error", fail));
  const names = await next();
  thread.unref();
  for (const name of names) {
    test(name, async () => {
      thread.ref();
      thread.postMessage(name);
      const { error } = await next();
      thread.unref();
      if (error !== undefined) throw error;
    });
  }
}

if (!isMainThread && typeof workerData === "string" && workerData.endsWith("-cases.mjs")) {
  const { cases } = await import(workerData);
  parentPort?.on("message", async (name) => {
    try {
      await cases[name]();
      parentPort?.postMessage({});
    } catch (error) {
      parentPort?.postMessage({ error });
    }
  });
  parentPort?.postMessage(Object.keys(cases));
}
