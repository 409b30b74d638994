// Compares two versions of node: the summaries of modules of agents and of whole programs, under the same seeds, must
// be the same byte for byte, with the same status. A summary has no version of node.
//
// usage: node recorder/tests/same-summaries.mjs "NODE" "OTHER NODE" [--seeds A..B] [--beside N] [WORD..]
//
// Each NODE is a command with its words, as "unshare .. node". With WORDs only those modules and programs are compared
// whose names have one of them. N pairs of summaries are made at a time, by default 2. If the first runs end by the
// limit of seconds, only three seeds are compared, and the line says so. The last line is `N passed, M failed`, and the
// status is 0 only if none failed. It is 2 if the command line can't be used.

import { execFile } from "node:child_process";
import { readFileSync, readdirSync } from "node:fs";
import { fileURLToPath } from "node:url";
import { parseArgs } from "node:util";
import { EXCEPTIONS } from "./exceptions.mjs";
import { PROGRAMS, urlOf } from "./programs/table.mjs";

const ROOT = fileURLToPath(new URL("../../", import.meta.url));
const RECORD = "recorder/record.mjs";
const FOLDERS = ["recorder/tests/known", "recorder/tests/agents", "recorder/examples", "recorder/bench/programs"];

/** What modules get that don't say it themselves. */
const SETUP = ["--agents", "2", "--buffers", "64,64"];

/** Where a module has a function for each of its first arguments: each on lines of its own, or all on one line. */
const WAYS = /^(?:export )?const (?:CASES|PROGRAMS|STEPS|WAYS|programs) = \{$([^]*?)^\}/m;
const WAY = /^ {2}(?:async )?(\w+)(?:: |\()/gm;
const LINE_OF_WAYS = /^const (?:PARTS|SERVERS) = \{ (.*) \};$/m;
const WAY_IN_LINE = /(\w+)(?:: \w+)?(?:, |$)/g;

/** Such runs take this long each, so that few are made. */
const ENDS_BY_TIME = /(?:has made no call|went on|of Atomics) for \d+ s/;
const FEW = "1..3";

/** @typedef {{ name: string, words: string[] }} Case of which two summaries are compared */
/** @typedef {{ status: number, output: string }} Made */

/** @param {string} path @returns {Case[]} */
function casesOf(path) {
  const code = readFileSync(`${ROOT}${path}`, "utf8");
  if (!code.includes("export default")) return [];
  const words = [path, ...(/\bsetup\b/.test(code) ? [] : SETUP), "--seconds", "3"];
  const lines = (WAYS.exec(code)?.[1] ?? "").matchAll(WAY);
  const inLine = (LINE_OF_WAYS.exec(code)?.[1] ?? "").matchAll(WAY_IN_LINE);
  const ways = [...lines, ...inLine].map(([, way]) => way);
  if (ways.length === 0) return [{ name: path, words }];
  return ways.map((way) => ({ name: `${path} ${way}`, words: [...words, "--", way] }));
}

/** @returns {Case[]} of all modules of agents */
function modules() {
  const paths = FOLDERS.flatMap((folder) => {
    const names = readdirSync(`${ROOT}${folder}`).filter((name) => name.endsWith(".mjs")).sort();
    return names.map((name) => `${folder}/${name}`);
  });
  return paths.flatMap(casesOf);
}

/** @returns {Case[]} of all programs that end by themselves */
function programs() {
  return PROGRAMS.filter(({ isEndless }) => !isEndless).map((program) => {
    const path = fileURLToPath(urlOf(program)).slice(ROOT.length);
    const words = ["--program", path, ...(program.isWeb ? ["--web"] : []), ...(program.options ?? [])];
    return { name: path, words };
  });
}

/**
 * The summary that a node makes, and the last line of standard error if there is none.
 * @param {string} node its command
 * @param {string[]} words
 * @param {string} seeds
 * @returns {Promise<Made>}
 */
const madeBy = (node, words, seeds) => new Promise((done) => {
  const [program, ...before] = node.split(" ");
  const split = words.includes("--") ? words.indexOf("--") : words.length;
  const options = ["--seeds", seeds, "--format", "json", "--jobs", "1"];
  const all = [...before, RECORD, ...words.slice(0, split), ...options, ...words.slice(split)];
  execFile(program, all, { cwd: ROOT, maxBuffer: 2 ** 28 }, (error, stdout, stderr) => {
    // A node that a signal has ended has no status: it is like no other.
    const status = error === null ? 0 : Number(error.code ?? NaN);
    done({ status, output: stdout === "" ? stderr.trim().split("\n").at(-1) ?? "" : stdout });
  });
});

/**
 * Where two texts begin to differ, with what is around.
 * @param {string} one
 * @param {string} other
 */
function differenceOf(one, other) {
  let at = 0;
  while (at < one.length && one[at] === other[at]) at += 1;
  const [first, second] = [one, other].map((text) => JSON.stringify(text.slice(Math.max(0, at - 150), at + 250)));
  return `  ${first}\n  ${second}`;
}

/**
 * Compares one case, and prints what differs.
 * @param {Case} each
 * @param {string[]} nodes
 * @param {string} seeds
 * @returns {Promise<boolean>} whether it is the same
 */
async function isSame({ name, words }, nodes, seeds) {
  const endsByTime = ENDS_BY_TIME.test((await madeBy(nodes[0], words, FEW)).output);
  const [one, other] = await Promise.all(nodes.map((node) => madeBy(node, words, endsByTime ? FEW : seeds)));
  const isAlike = one.status === other.status && one.output === other.output;
  const exception = EXCEPTIONS[name];
  const statuses = `status ${one.status} and ${other.status}`;
  const few = endsByTime ? `, seeds ${FEW}` : "";
  if (isAlike) console.log(`${name}: the same, status ${one.status}${one.status > 1 ? `, ${one.output}` : ""}${few}`);
  else if (exception !== undefined) console.log(`${name}: differs, as it may: ${exception}`);
  else console.log(`${name} differs: ${statuses}\n${differenceOf(one.output, other.output)}`);
  return isAlike || exception !== undefined;
}

const { values, positionals } = parseArgs({
  allowPositionals: true,
  options: { seeds: { type: "string", default: "1..100" }, beside: { type: "string", default: "2" } },
});
const [one, other, ...wanted] = positionals;
if (other === undefined) {
  console.error("same-summaries: name two commands of node, as in the usage at the head of this file");
  process.exit(2);
}
/** @param {Case} each */
const isWanted = ({ name }) => wanted.length === 0 || wanted.some((word) => name.includes(word));
const waiting = [...modules(), ...programs()].filter(isWanted);
/** @type {boolean[]} */
const same = [];
await Promise.all(Array.from({ length: Number(values.beside) }, async () => {
  for (let each = waiting.shift(); each !== undefined; each = waiting.shift()) {
    same.push(await isSame(each, [one, other], values.seeds));
  }
}));
const count = same.filter(Boolean).length;
console.log(`${count} passed, ${same.length - count} failed`);
process.exitCode = count === same.length && count > 0 ? 0 : 1;
