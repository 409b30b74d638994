// Writes the sections of docs/RECORDER.md and of the declared types that are made from the table of options
// (recorder/lib/options/table.mjs). Each is between two comment lines, and nothing else is written.
//
// usage: node tools/sections.mjs [--check] [FOLDER]
//
// FOLDER is the repository, if it isn't this one. With --check nothing is written: a line names each file that isn't in
// step with the table, and the status is 1 if there is one.

import { readFileSync, writeFileSync } from "node:fs";
import { join } from "node:path";
import { fileURLToPath } from "node:url";
import { OPTIONS, optionWord, optionsOf, unlinked } from "../recorder/lib/options/table.mjs";
import { digits } from "../recorder/lib/run/words/summary-words.mjs";

const HERE = fileURLToPath(new URL("../", import.meta.url));
const COLUMNS = 120;

/** @typedef {import("../recorder/lib/options/table.mjs").Option} Option */
/** @typedef {[name: string, row: Option]} Named */

/** @param {string} text @returns {string} */
const capitalized = (text) => text.replace(/^[a-z]/, (letter) => letter.toUpperCase());

/** @param {string[]} sentences without their ends @returns {string} one text; it begins as the first of them does */
const joined = ([first, ...others]) =>
  [first, ...others.filter((each) => each !== "").map(capitalized)].join(". ");

/** @param {string} text @returns {string} with each large number as `9,432` */
const withDigits = (text) => text.replaceAll(/\b\d{4,}\b/g, digits);

/** @param {unknown[]} values @param {string} and @returns {string} as a document writes them */
const quoted = (values, and) => values.map((value) => `\`${value}\``).join(", ").replace(/, ([^,]*)$/, ` ${and} $1`);

/**
 * What serves if an option isn't given.
 * @param {Option} row
 * @param {(value: unknown) => string} spelled a word or a range of seeds, as it is written there
 * @returns {string} empty: nothing, or it must be given
 */
function defaultOf({ ifNone, assumed = ifNone, orElse = "" }, spelled) {
  if (assumed === undefined) return orElse;
  if (typeof assumed === "number") return digits(assumed);
  if (typeof assumed === "boolean") return `${assumed}`;
  if (Array.isArray(assumed)) return "none";
  return spelled(typeof assumed === "object" ? `${assumed.first}..${assumed.last}` : assumed);
}

/** @param {Option} row @returns {string[]} sentences on what it doesn't go with on the command line */
function exclusionsOf({ of, only, not = [] }) {
  const goesWith = only?.why === undefined ? [] : [`${only.of === "program" ? "Only" : "Not"} with \`--program\``];
  if (of.includes("every")) goesWith.push("Only with `--all`");
  return [...goesWith, ...not.map(({ of: other, values }) =>
    (values === undefined ? `Not with \`--${other}\`` : `With \`--${other}\` not ${quoted(values, "and not")}`))];
}

/** @param {string[][]} rows @param {string[]} head @returns {string[]} the lines of a table */
function tableOf(rows, head) {
  const [first, ...others] = [head, ...rows].map((cells) => `| ${cells.join(" | ")} |`);
  return [first, `|${"---|".repeat(head.length)}`, ...others];
}

/** @returns {string[]} the lines of the table of the command line */
function commandTable() {
  const rows = optionsOf("command").map(([name, row]) => {
    const { help: [argument, says], more = "", kind: { words, range = "" }, letter } = row;
    const option = `--${optionWord(name)} ${argument}`.trimEnd();
    const shown = letter === undefined ? says : `prints ${says}, as \`-${letter}\` does`;
    const text = joined([shown, more, ...exclusionsOf(row)]);
    const isFlag = row.kind.text === undefined;
    return [`\`${option}\``, text, words === undefined ? withDigits(range) : quoted(words, "or"),
      isFlag ? "" : defaultOf(row, (value) => `\`${value}\``)];
  });
  return tableOf(rows, ["Option", "What it says", "What it can be", "By default"]);
}

/** @param {Option} row @returns {string} what it says in the library */
const libraryText = ({ help: [, says], inLibrary = says, more = "" }) =>
  joined([inLibrary, more]).replaceAll(/`--([a-z]+)`/g, "`$1`");

/**
 * A table of the library. What an option says on the command line too isn't said again.
 * @param {Named[]} options
 * @returns {string[]}
 */
function libraryTable(options) {
  const isTheSame = (/** @type {Named} */ [, { of, inLibrary, elseInLibrary = inLibrary }]) =>
    of.includes("command") && elseInLibrary === undefined;
  const same = options.filter(isTheSame).map(([name]) => name);
  const rows = options.filter((option) => !isTheSame(option)).map(([name, row]) =>
    [`\`${name}\``, libraryText(row), row.elseInLibrary ?? defaultOf(row, (value) => `\`"${value}"\``)]);
  const others = same.length === 0 ? [] : [[quoted(same, "and"), "as on the command line", ""]];
  return tableOf([...rows, ...others], ["Option", "What it says", "By default"]);
}

/** @param {string} text @returns {string[]} the lines of a comment before a member */
function commentOf(text) {
  const line = `  /** ${text} */`;
  if (line.length <= COLUMNS) return [line];
  const lines = [""];
  for (const word of text.split(" ")) {
    const longer = `${lines.at(-1)} ${word}`.trimStart();
    if (longer.length > COLUMNS - "   * ".length) lines.push(word);
    else lines[lines.length - 1] = longer;
  }
  return ["  /**", ...lines.map((each) => `   * ${each}`), "   */"];
}

/** @param {Named[]} options @returns {string[]} the lines of the members of their type */
const membersOf = (options) => options.flatMap(([name, row]) => {
  const { kind: { type, range = "" }, isNeeded = false, elseInLibrary } = row;
  const other = elseInLibrary ?? defaultOf(row, (value) => JSON.stringify(value));
  const further = [range, other && `else ${other}`].filter((each) => each !== "").join("; ");
  const text = joined([unlinked(libraryText(row)), withDigits(further)]);
  return [...commentOf(`${capitalized(text)}.`), `  ${name}${isNeeded ? "" : "?"}: ${type};`];
});

const ALL = Object.entries(OPTIONS);
const [RECORD, EXPLORE] = [optionsOf("record"), optionsOf("explore")].map((options) => new Map(options));
const OF_BOTH = ALL.filter(([name]) => RECORD.has(name) && EXPLORE.has(name));
const MANY = [...EXPLORE].filter(([name]) => !RECORD.has(name));

/** The sections of each file, by the words behind their first lines. */
const SECTIONS = {
  "docs/RECORDER.md": {
    command: commandTable(), record: libraryTable([...RECORD]), explore: libraryTable(MANY),
    trial: libraryTable(optionsOf("trial")),
  },
  "recorder/options.d.cts": {
    each: membersOf(OF_BOTH.filter(([, { only }]) => only === undefined)),
    agents: membersOf(OF_BOTH.filter(([, { only }]) => only?.of === "agents")),
    program: membersOf(OF_BOTH.filter(([, { only }]) => only?.of === "program")),
    one: membersOf([...RECORD].filter(([name]) => !EXPLORE.has(name))),
    many: membersOf(MANY), every: membersOf(optionsOf("every")),
  },
  "recorder/testing.d.cts": { trial: membersOf(optionsOf("trial")) },
};

/** The line before a section, with the word that names it, and the line behind it. */
const SECTION = new RegExp(
  "^( *(?:<!--|//) tools/sections.mjs makes this from the table of options: (\\w+).*\n)[^]*?"
  + "^( *(?:<!--|//) Up to here)", "gm",
);

/** @param {string} text @param {Record<string, string[]>} sections @returns {string} with these sections in it */
function withSections(text, sections) {
  const found = new Set();
  const made = text.replaceAll(SECTION, (_, before, name, behind) => {
    found.add(name);
    const blank = before.includes("<!--") ? "\n" : "";
    return `${before}${blank}${sections[name].join("\n")}\n${blank}${behind}`;
  });
  const missing = Object.keys(sections).filter((name) => !found.has(name));
  if (missing.length > 0) throw new Error(`there is no section ${missing.join(", ")}`);
  return made;
}

const words = process.argv.slice(2);
const isCheck = words[0] === "--check";
const folder = words[isCheck ? 1 : 0] ?? HERE;
for (const [name, sections] of Object.entries(SECTIONS)) {
  const path = join(folder, name);
  const text = readFileSync(path, "utf8");
  const made = withSections(text, sections);
  if (made === text) continue;
  if (isCheck) {
    process.exitCode = 1;
    console.log(`${name} isn't in step with recorder/lib/options/table.mjs: run node tools/sections.mjs`);
  } else {
    writeFileSync(path, made);
  }
}
