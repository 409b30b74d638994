// Whether modules of agents are learned and searched in other forms as in their own.
//
// node recorder/bench/same-forms.mjs MODULE ..

import { mkdtempSync, rmSync } from "node:fs";
import { tmpdir } from "node:os";
import { join } from "node:path";
import { fileURLToPath, pathToFileURL } from "node:url";
import { Worker } from "node:worker_threads";
import graphFlags from "../lib/program/node/graph-flags.cjs";
import { isMain } from "./is-main.mjs";
import { compared } from "./merging.mjs";

const BASE = fileURLToPath(new URL("../", import.meta.url));
const LIMIT = 30_000;

/**
 * Writes modules in all forms.
 * @param {string} folder
 * @param {string[]} urls of modules
 * @param {string} [base] the folder in which all are that they import
 * @returns {Promise<Record<string, string[]>>} those of each form
 */
export const formsOf = (folder, urls, base = BASE) => new Promise((done, fail) => {
  const execArgv = [...graphFlags.GRAPH_FLAGS, "--no-warnings"];
  const workerData = { base, folder, urls };
  const worker = new Worker(new URL("./forms-worker.mjs", import.meta.url), { workerData, execArgv });
  worker.on("message", done);
  worker.on("error", fail);
});

/** @param {any} result @returns {string} without lines */
const textOf = (result) => JSON.stringify(result).replace(/\.[cm]?js:\d+:\d+/g, ".mjs");

/**
 * @param {string[]} urls of modules
 * @param {string} [base] the folder in which all are that they import
 * @returns {Promise<{ url: string, own: any, differs: string[] }[]>} what is learned of each, and in which forms it is
 * something else
 */
export async function inAllForms(urls, base) {
  const folder = mkdtempSync(join(tmpdir(), "sabsim-forms-"));
  try {
    const learned = (/** @type {string[]} */ some) => compared({ urls: some, limit: LIMIT, isUnmergedToo: false });
    const own = await learned(urls);
    /** @type {[string, any[]][]} */
    const others = [];
    const forms = Object.entries(await formsOf(folder, urls, base));
    for (const [form, some] of forms) others.push([form, await learned(some)]);
    return urls.map((url, at) => {
      const differing = others.filter(([, results]) => textOf(results[at]) !== textOf(own[at]));
      return { url, own: own[at], differs: differing.map(([form, results]) => `${form}: ${textOf(results[at])}`) };
    });
  } finally {
    rmSync(folder, { recursive: true });
  }
}

if (isMain(import.meta.url)) {
  for (const { url, own, differs } of await inAllForms(process.argv.slice(2).map((path) => pathToFileURL(path).href))) {
    console.log(`${url}: ${textOf(own).slice(0, 200)}${differs.map((one) => `\n  differs ${one}`).join("")}`);
    if (differs.length > 0) process.exitCode = 1;
  }
}
