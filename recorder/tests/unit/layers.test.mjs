// The recorder's folders depend on each other in one direction. docs/ARCHITECTURE.md draws them in rows: each folder
// imports only from lower rows. Types in comments count, and so do the files that workers begin with.

import assert from "node:assert/strict";
import { existsSync, readFileSync, readdirSync } from "node:fs";
import { posix } from "node:path";
import { test } from "node:test";

const RECORDER = new URL("../../", import.meta.url);
const MAP = new URL("../../../docs/ARCHITECTURE.md", import.meta.url);

/** A row of the picture: its number, and the folders and files that are in it. */
const ROW = /^ {4} ?(\d+) {2,}(\S.*)$/gm;

/** An import of a file of the recorder, and a file that a worker or a process begins with. */
const IMPORT =
  /\b(?:from|import|require)\s*\(?\s*(["'])(\.[^"']*)\1|\bnew URL\(\s*(["'])(\.[^"']*\.[cm]js)\3,/g;

/** @returns {Map<string, number>} the row of each folder and file that the picture names */
function rowsDrawn() {
  const [, section] = readFileSync(MAP, "utf8").split("\n## The recorder's layers\n");
  const rows = [...section.split("\n## ")[0].matchAll(ROW)];
  return new Map(rows.flatMap(([, number, places]) => places.split(/\s+/).map((place) => [place, Number(number)])));
}

const ROWS = rowsDrawn();

/**
 * The folder or file of the picture in which a file is.
 * @param {string} file its path in the recorder's folder
 * @returns {string | undefined}
 */
function placeOf(file) {
  for (let path = file; path !== "."; path = posix.dirname(path)) {
    if (ROWS.has(path)) return path;
  }
  return undefined;
}

/** @param {string} folder @returns {string[]} the paths of its modules, and of those in the folders below it */
function modulesIn(folder) {
  const entries = readdirSync(new URL(folder, RECORDER), { withFileTypes: true });
  return entries.flatMap((entry) => {
    const path = `${folder}${entry.name}`;
    if (entry.isDirectory()) return modulesIn(`${path}/`);
    return /\.[cm]js$/.test(path) ? [path] : [];
  });
}

/**
 * @param {string} file
 * @param {string} text that it has
 * @returns {string[]} the paths of the files that it imports; types may be declared in a file beside the code
 */
function importedBy(file, text) {
  return [...text.matchAll(IMPORT)].map(({ 0: all, 2: module, 4: begun, index }) => {
    const path = posix.join(posix.dirname(file), module ?? begun);
    const isType = /^\)\.[A-Z]/.test(text.slice(index + all.length));
    const declared = path.replace(/\.cjs$/, ".d.cts");
    return isType && existsSync(new URL(declared, RECORDER)) ? declared : path;
  });
}

/**
 * What is wrong with an import.
 * @param {string} file
 * @param {string} imported the path of the file that it imports
 * @returns {string[]}
 */
function faultsOf(file, imported) {
  if (!existsSync(new URL(imported, RECORDER))) return [`${file} imports ${imported}, and there is no such file`];
  const [from, to] = [placeOf(file), placeOf(imported)];
  if (from === to || ROWS.get(to) < ROWS.get(from)) return [];
  return [`${file} imports ${imported}, but ${from} is in row ${ROWS.get(from)} and ${to} in row ${ROWS.get(to)}`];
}

const MODULES = modulesIn("");
const CODE = MODULES.filter((file) => placeOf(file) !== "tests");

test("the picture has a row for each module, and names nothing that isn't there", () => {
  assert.deepEqual(MODULES.filter((file) => placeOf(file) === undefined), []);
  assert.deepEqual([...ROWS.keys()].filter((place) => !existsSync(new URL(place, RECORDER))), []);
});

test("each folder imports only from lower rows", () => {
  const imports = CODE.flatMap((file) =>
    importedBy(file, readFileSync(new URL(file, RECORDER), "utf8")).map((imported) => ({ file, imported })));
  assert.ok(imports.length > 500, `${imports.length} imports`);
  assert.deepEqual(imports.flatMap(({ file, imported }) => faultsOf(file, imported)), []);
});

const COMMENTS = /\/\*\*[^]*?\*\/|\/\/.*|\bnew URL\(.*/g;

/** The modules that a module imports: neither types nor files that workers begin with. @param {string} file */
function neededBy(file) {
  return importedBy(file, readFileSync(new URL(file, RECORDER), "utf8").replaceAll(COMMENTS, ""));
}

/**
 * A circle of modules that need each other.
 * @param {(file: string) => string[]} needed
 * @param {string[]} files
 * @returns {string[]} none: empty
 */
function circleIn(needed, files) {
  const done = new Set();
  /** @param {string} file @param {string[]} path that leads to it @returns {string[]} */
  const circle = (file, path) => {
    if (path.includes(file)) return [...path.slice(path.indexOf(file)), file];
    if (done.has(file)) return [];
    const found = needed(file).map((next) => circle(next, [...path, file])).find(({ length }) => length > 0);
    done.add(file);
    return found ?? [];
  };
  return files.map((file) => circle(file, [])).find(({ length }) => length > 0) ?? [];
}

test("no modules need each other in a circle", () => {
  assert.deepEqual(circleIn(neededBy, CODE), []);
  const circle = { a: ["b"], b: ["c", "d"], c: [], d: ["b"] };
  assert.deepEqual(circleIn((file) => circle[file], ["a"]), ["b", "d", "b"]);
});

test("one file alone asks which system runs", () => {
  const ASKS = /\bprocess\s*\.\s*platform\b|\bplatform\(\)|\{[^}]*\bplatform\b[^}]*\} = process\b/;
  const asking = MODULES.filter((file) => ASKS.test(readFileSync(new URL(file, RECORDER), "utf8")));
  assert.deepEqual(asking, ["lib/processes/platform.cjs"]);
});

test("an import from a row above, or from the same row, is a fault that names both files", () => {
  const [run, seeds, keeping] = ["lib/run/group.mjs", "lib/seeds/runs.mjs", "lib/keeping/run-store.mjs"];
  const [of, to] = [ROWS.get("lib/run"), ROWS.get("lib/seeds")];
  assert.deepEqual(faultsOf(run, seeds), [
    `${run} imports ${seeds}, but lib/run is in row ${of} and lib/seeds in row ${to}`,
  ]);
  assert.equal(faultsOf(seeds, keeping).length, 1);
  assert.deepEqual([faultsOf(seeds, run), faultsOf(run, "lib/run/referee.mjs")], [[], []]);
  assert.deepEqual(faultsOf(run, "lib/run/none.mjs"), [`${run} imports lib/run/none.mjs, and there is no such file`]);
});

test("imports are found in each form", () => {
  const forms = [
    'import { one,\n  two } from "./a.mjs";', 'import "./b.mjs";', 'export { one } from "../c.mjs";',
    'await import("../../d.mjs")', '/** @type {import("./e/f.mjs").One} */', 'new URL("./g.mjs", import.meta.url)',
    'import { join } from "node:path";', 'new URL("./folder/", import.meta.url)', "import one from '../h.mjs';",
    'require("./i.cjs")', 'new URL("./j.cjs", own)', '/** @type {import("../../testing.cjs").OfTrial} */',
    'require("../../testing.cjs").testAgents',
  ];
  assert.deepEqual(importedBy("lib/run/group.mjs", forms.join("\n")), [
    "lib/run/a.mjs", "lib/run/b.mjs", "lib/c.mjs", "d.mjs", "lib/run/e/f.mjs", "lib/run/g.mjs", "lib/h.mjs",
    "lib/run/i.cjs", "lib/run/j.cjs", "testing.d.cts", "testing.cjs",
  ]);
});
