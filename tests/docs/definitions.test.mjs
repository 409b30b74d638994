// In the recorder's code a name means one thing. No two files export the same name, or define a JSDoc type of the same
// name, and no two files have the same name. So a search for a name finds what it means.

import assert from "node:assert/strict";
import { test } from "node:test";
import { filesBelow, textOf } from "./documents.mjs";

/** Where that code is: the tests, examples and benches have names of their own. */
const FOLDERS = ["recorder/lib", "recorder/page", "recorder/schedule", "recorder/script", "recorder/wasm"];

/** Names that several files may define, and why. */
const EXCEPTIONS = new Map([
  ["main", "the function that `own-worker.cjs` calls in the module with which a worker begins"],
  ["openPage", "the function that a page calls in its module"],
]);

const EXPORTED = /^export (?:(?:async )?(?:function\*?|class|const|let) (?:(\w+)|\{([^}]*)\})|\{([^}]*)\}(?! from))/gm;
const COMMON_EXPORTS = /^module\.exports = \{([^}]*)\}/gm;
const TYPE = /@(?:typedef|callback) /g;

/** A type that is only another file's, under its own name: it defines nothing. */
const IMPORTED = /^\{\s*import\("[^"]+"\)\.(\w+)(?:<[^>]*>)?\s*\}$/;

/** @param {string} list between braces, such as `a, b: c` or `a as c` @returns {string[]} the names behind */
const lastNames = (list) => list.split(",").flatMap((each) => /(\w+)\s*$/.exec(each)?.[1] ?? []);

/**
 * @param {string} text that begins with a brace
 * @returns {number} the position behind the brace that closes it
 */
function behindBraces(text) {
  let depth = 0;
  for (let at = 0; at < text.length; at += 1) {
    if (text[at] === "{") depth += 1;
    if (text[at] === "}") depth -= 1;
    if (depth === 0) return at + 1;
  }
  return text.length;
}

/** @param {string} text of a module @returns {string[]} the types that its comments define */
function typesIn(text) {
  return [...text.matchAll(TYPE)].flatMap(({ index, 0: { length } }) => {
    const rest = text.slice(index + length);
    const type = rest.startsWith("{") ? rest.slice(0, behindBraces(rest)) : "";
    const name = /^[\s*]*(\w+)/.exec(rest.slice(type.length))?.[1] ?? "";
    return name === "" || IMPORTED.exec(type.replaceAll(/\s*\n\s*\*\s*/g, " "))?.[1] === name ? [] : [name];
  });
}

/** @param {string} text of a module @returns {string[]} the names that it exports, and the types that it defines */
function definedIn(text) {
  const exported = [...text.matchAll(EXPORTED)].flatMap(([, one, several, listed]) =>
    one === undefined ? lastNames(several ?? listed) : [one]);
  const common = [...text.matchAll(COMMON_EXPORTS)].flatMap(([, listed]) => lastNames(listed));
  return [...exported, ...common, ...typesIn(text)];
}

/**
 * What is there more than once.
 * @param {{ name: string, file: string }[]} list
 * @returns {string[]} a line for each name, with its files
 */
function repeatedIn(list) {
  /** @type {Map<string, Set<string>>} */
  const files = new Map();
  for (const { name, file } of list) files.set(name, (files.get(name) ?? new Set()).add(file));
  return [...files].filter(([, those]) => those.size > 1).map(([name, those]) => `${name}: ${[...those].join(", ")}`);
}

const MODULES = FOLDERS.flatMap(filesBelow).filter((path) => /\.[cm]js$/.test(path));

test("a name that a file of the recorder exports, or a type's, is defined in one file", () => {
  const all = MODULES.flatMap((file) => definedIn(textOf(file)).map((name) => ({ name, file })));
  assert.ok(all.length > 1_000, `${all.length} names`);
  assert.deepEqual(repeatedIn(all.filter(({ name }) => !EXCEPTIONS.has(name))), []);
  const isRepeated = (/** @type {string} */ each) => repeatedIn(all.filter(({ name }) => name === each)).length > 0;
  assert.deepEqual([...EXCEPTIONS.keys()].filter((each) => !isRepeated(each)), []);
});

test("no two files of the recorder have the same name", () => {
  assert.ok(MODULES.length > 250, `${MODULES.length} files`);
  assert.deepEqual(repeatedIn(MODULES.map((file) => ({ name: file.split("/").at(-1) ?? "", file }))), []);
});

test("definitions are found in each form, and types that are imported define nothing", () => {
  const forms = [
    "export function one() {}", "export async function* two() {}", "export class Three {}", "export const four = 4;",
    "export const { five, of: six } = each;", "export { seven, of as eight };", 'export { other } from "./a.mjs";',
    "module.exports = {\n  nine,\n  ten,\n};",
    "const own = 1;", "/** @typedef {{ at: number }} Eleven where it is */", "/**\n * @typedef {object} Twelve\n */",
    "/**\n * @callback Thirteen\n * @param {number} at\n */",
    '/** @typedef {import("./a.mjs").Fourteen["at"]} Fifteen */',
    '/** @typedef {import("./a.mjs").Other} Sixteen */', '/** @typedef {import("./a.mjs").Imported} Imported */',
    '/** @template T @typedef {import("./a.mjs").Generic<T>} Generic */',
    "/**\n * @typedef {{ at: number,\n * to: number }} Seventeen\n */",
  ];
  assert.deepEqual(definedIn(forms.join("\n")), [
    "one", "two", "Three", "four", "five", "six", "seven", "eight", "nine", "ten", "Eleven", "Twelve", "Thirteen",
    "Fifteen", "Sixteen", "Seventeen",
  ]);
});

test("a name in two files is reported with both", () => {
  const list = [{ name: "a", file: "x" }, { name: "b", file: "x" }, { name: "a", file: "y" }, { name: "b", file: "x" }];
  assert.deepEqual(repeatedIn(list), ["a: x, y"]);
});
