// Two more forms of a module: without any semicolon that may be left out, and on the fewest lines. The tree stays.

import { isDeepStrictEqual } from "node:util";
import { endedIn, withSemicolons } from "../lib/every/rewriting/semicolons.mjs";

/** @typedef {import("../lib/every/rewriting/tree.mjs").Tree} Tree */
/** @typedef {{ start: number, end: number, value?: unknown, type: { label: string } }} Token as acorn has it */
/** @typedef {(source: string, onToken?: Token[]) => Tree} Parse */
/** @typedef {(source: string, parse: Parse) => string} Form writes a module in another form */

/** With these the next line would go on with the statement, or make a field of a class the begin of a method. */
const GOES_ON = /^(?:[([`/*,.;<>=&|^%?:]|\+(?!\+)|-(?!-)|in\b|instanceof\b)/;
const BEGINS_METHODS = /^(?:static\s+)?(?:get|set|static|async)$/;

/** @param {string} source with all semicolons @param {Tree} tree @returns {number[]} where they are */
const endsIn = (source, tree) => endedIn(tree).filter(({ type, start, end }) =>
  type !== "PropertyDefinition" || !BEGINS_METHODS.test(source.slice(start, end - 1)))
  .map(({ end }) => end - 1).sort((one, other) => one - other);

/** @param {Tree} tree @returns {Tree} without what says where it was */
function bare(tree) {
  if (typeof tree !== "object" || tree === null || tree instanceof RegExp) return tree;
  if (Array.isArray(tree)) return tree.map(bare);
  return Object.fromEntries(Object.entries(tree).filter(([key]) => !/^(?:start|end|loc|range)$/.test(key))
    .map(([key, value]) => [key, bare(value)]));
}

/** @param {string} source @param {string} made @param {Parse} parse @returns {string} `made` */
function sameTree(source, made, parse) {
  if (isDeepStrictEqual(bare(parse(source)), bare(parse(made)))) return made;
  throw new Error("another form of a module has another tree");
}

/** @type {Form} a statement that goes on in the next line otherwise has its semicolon */
export function withoutSemicolons(source, parse) {
  const { source: whole } = withSemicolons(parse(source), source);
  /** @type {Token[]} */
  const tokens = [];
  const ends = endsIn(whole, parse(whole, tokens));
  let made = "";
  let from = 0;
  for (const end of ends) {
    const next = tokens.find(({ start }) => start > end);
    const then = next === undefined ? "" : whole.slice(next.start, next.start + 20);
    if (GOES_ON.test(then)) continue;
    const isApart = then === "" || then.startsWith("}") || whole.slice(end + 1, next?.start).includes("\n");
    made += `${whole.slice(from, end)}${isApart ? "" : "\n"}`;
    from = end + 1;
  }
  return sameTree(source, made + whole.slice(from), parse);
}

/** @type {Form} texts and templates stay as they are; comments go */
export function onFewestLines(source, parse) {
  const { source: whole } = withSemicolons(parse(source), source);
  /** @type {Token[]} */
  const tokens = [];
  parse(whole, tokens);
  let made = "";
  let from = tokens[0]?.start ?? 0;
  for (const { start, end } of tokens) {
    const between = whole.slice(from, start);
    made += `${/[\n/]/.test(between) ? " " : between}${whole.slice(start, end)}`;
    from = end;
  }
  return sameTree(source, `${made.trimEnd()}\n`, parse);
}

/** @type {Record<string, Form>} by their names */
export const FORMS = { "without semicolons": withoutSemicolons, "on the fewest lines": onFewestLines };
