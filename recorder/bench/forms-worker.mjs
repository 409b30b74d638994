// Writes modules, with all that they import from beside them, in other forms into folders.

import { mkdirSync, readFileSync, writeFileSync } from "node:fs";
import { dirname, join, relative } from "node:path";
import { fileURLToPath, pathToFileURL } from "node:url";
import { parentPort, workerData } from "node:worker_threads";
import { parseScript } from "../lib/program/node/internals.mjs";
import { FORMS } from "./forms.mjs";

/** @type {{ base: string, folder: string, urls: string[] }} modules in a folder, and where their forms come */
const { base, folder, urls } = workerData;

/** @type {import("./forms.mjs").Parse} */
const parse = (source, onToken) => parseScript(source, { ecmaVersion: "latest", sourceType: "module", onToken });

/** @param {string} source @returns {string[]} the modules beside it that it imports */
const besideIn = (source) => parse(source).body.map((/** @type {any} */ one) => one.source?.value)
  .filter((/** @type {string | undefined} */ one) => one?.startsWith("."));

/** @param {string} url @param {string} name of a form @param {Set<string>} written @returns {string} the form's URL */
function write(url, name, written) {
  const path = join(folder, name.replaceAll(" ", "-"), relative(base, fileURLToPath(url)));
  if (!written.has(url)) {
    written.add(url);
    const source = readFileSync(fileURLToPath(url), "utf8").replace(/^#!.*/, "");
    mkdirSync(dirname(path), { recursive: true });
    writeFileSync(path, FORMS[name](source, parse));
    for (const one of besideIn(source)) write(new URL(one, url).href, name, written);
  }
  return pathToFileURL(path).href;
}

const made = Object.keys(FORMS).map((name) => {
  const written = new Set();
  return [name, urls.map((url) => write(url, name, written))];
});
parentPort?.postMessage(Object.fromEntries(made));
