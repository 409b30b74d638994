// What the tests of the documents share.

import { readFileSync, readdirSync } from "node:fs";
import { join, posix } from "node:path";
import { fileURLToPath } from "node:url";

export const TOP = fileURLToPath(new URL("../../", import.meta.url));

/** @param {string} path from the top of the repository */
export const textOf = (path) => readFileSync(join(TOP, path), "utf8");

/** The documents of the repository, by their paths from its top. */
export const DOCUMENTS = [
  "README.md", "CHANGELOG.md", "CONTRIBUTING.md", "bench/README.md", "recorder/README.md",
  "recorder/bench/README.md",
  ...readdirSync(join(TOP, "docs")).filter((name) => name.endsWith(".md")).map((name) => `docs/${name}`),
];

/** What no copy of the repository needs: what tools have made, and the history. */
const LEFT_OUT = new Set([".git", "out", "node_modules"]);

/** Where the recorder keeps what it finds, if a command was run at the top. */
const KEPT = "found";

/** Whether a path is one of what tools have made, or of the history. @param {string} path from the top */
export const isLeftOut = (path) => path === KEPT || LEFT_OUT.has(posix.basename(path));

/** @param {string} folder from the top @returns {string[]} the paths of the files in it and below */
export function filesBelow(folder) {
  return readdirSync(join(TOP, folder), { withFileTypes: true }).flatMap((entry) => {
    const path = posix.join(folder, entry.name);
    if (isLeftOut(path)) return [];
    if (entry.isDirectory()) return filesBelow(path);
    return entry.isFile() ? [path] : [];
  });
}

/** A document without its indented blocks. @param {string} path */
export const proseOf = (path) => textOf(path).split("\n").filter((line) => !line.startsWith("    ")).join("\n");

/** What is in backticks in a document's prose. @param {string} path */
export const spansOf = (path) => [...proseOf(path).matchAll(/`([^`\n]+)`/g)].map(([, span]) => span);
