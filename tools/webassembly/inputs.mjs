// What the module and the program are compared on: scripts, traces, files of automata, and words of command lines.

import { readFileSync, readdirSync } from "node:fs";
import { fileURLToPath } from "node:url";
import { randomTrace } from "../../recorder/tests/helpers/random-traces.mjs";
import { Dice, generatedScript, timedScript } from "../../recorder/tests/helpers/scripts.mjs";

const ROOT = new URL("../../", import.meta.url);
const CASES = new URL("tests/scripts/", ROOT);
const EXAMPLES = new URL("examples/", ROOT);
const VERDICTS = new URL("tests/verdicts/", ROOT);
const SEARCHES = new URL("tests/search/examples/", ROOT);
const MOVES = 100_000;
const TOO_LONG = 1_048_577;
const CHANGES = 10;

/** @typedef {{ name: string, bytes: Uint8Array }} Input */

/** The ways to do something with a script, as words of a command line. */
export const SCRIPT_WAYS = [
  "replay", "replay --format explained", "replay --format json", "replay --format svg", "replay --format script",
  "replay --acts --finish", "replay --acts --format explained --explain", "replay --format json --finish --explain",
  "check", "judge", "judge --format json --finish", "judge --explain",
].map((way) => way.split(" "));

/** The same for a trace. */
export const TRACE_WAYS = ["judge --trace", "judge --trace --format json"].map((way) => way.split(" "));

/** The same for a file of automata. */
export const SEARCH_WAYS = [
  "search", "search --states", "search --format json --states", "search --timeouts last --format json",
  "search --timeouts never --states --explain", "search --limit 7 --format json --explain",
].map((way) => way.split(" "));

/** @param {URL} folder @returns {Input[]} the files of these endings */
function filesIn(folder, ending = ".json") {
  const names = readdirSync(folder, { recursive: true }).map(String).filter((name) => name.endsWith(ending));
  return names.sort().map((name) => ({ name, bytes: readFileSync(new URL(name, folder)) }));
}

/** @returns {Input[]} every script of the cases, and of the verdicts */
export const cases = () => [...filesIn(CASES), ...filesIn(EXAMPLES), ...filesIn(VERDICTS)];

/** @returns {Input[]} the cases that are programs people know */
export const examples = () => filesIn(EXAMPLES);

/** @param {string} name of an example @param {string} ending @returns {Uint8Array} what is kept beside it */
export const besideExample = (name, ending) =>
  readFileSync(new URL(name.replace(/json$/, ending), EXAMPLES));

/** What can be put in place of a part. */
const PUT = ["-1", "null", "9e9", '"', "}", "\\", "0", "\xff"];

/**
 * A text with one part of it changed: bytes taken out, doubled or replaced.
 * @param {Dice} dice
 * @param {Uint8Array} bytes
 */
function changed(dice, bytes) {
  const at = dice.below(bytes.length);
  const end = Math.min(bytes.length, at + 1 + dice.below(4));
  const part = bytes.slice(at, end);
  const put = dice.of([[], [...part, ...part], Buffer.from(dice.of(PUT))]);
  return Uint8Array.from([...bytes.slice(0, at), ...put, ...bytes.slice(end)]);
}

/** @param {number} count @returns {Input[]} random scripts, of which four in ten are changed at one place */
export function randomScripts(count) {
  return Array.from({ length: count }, (_, seed) => {
    const dice = new Dice(seed);
    const script = dice.percent(80) ? generatedScript(seed) : timedScript(seed);
    const bytes = Buffer.from(JSON.stringify(script));
    return { name: `random script ${seed}`, bytes: dice.percent(40) ? changed(dice, bytes) : bytes };
  });
}

/** @param {number} count @returns {Input[]} random traces, of which four in ten are changed at one place */
export function randomTraces(count) {
  return Array.from({ length: count }, (_, seed) => {
    const dice = new Dice(seed);
    const bytes = Buffer.from(randomTrace(seed));
    return { name: `random trace ${seed}`, bytes: dice.percent(40) ? changed(dice, bytes) : bytes };
  });
}

/** @returns {Input[]} the examples of files of automata */
export const automata = () => filesIn(SEARCHES).filter(({ name }) => !name.endsWith(".result.json"));

/** @returns {Input[]} the same, each changed at one place, in several ways */
export function changedAutomata() {
  return automata().flatMap(({ name, bytes }, seed) => {
    const dice = new Dice(seed);
    return Array.from({ length: CHANGES }, (_, change) => ({
      name: `${name}, change ${change}`, bytes: changed(dice, bytes),
    }));
  });
}

/** @returns {Input[]} scripts near the limits, and texts beyond them */
export function largeInputs() {
  const view = { name: "a", kind: "Int32", block: 0, offset: 0, length: null };
  const agent = (calls) => ({ block: true, calls });
  const script = (agents, schedule) =>
    Buffer.from(JSON.stringify({ blocks: [65536], views: [view], agents, schedule }));
  const loads = Array.from({ length: 1000 }, (_, index) => ["add", "a", index % 64, 1]);
  const waits = Array(1000).fill(["wait", "a", 0, 0, 5]);
  const turns = (agents) => Array.from({ length: MOVES }, (_, move) => move % agents);
  return [
    { name: "16 agents that add", bytes: script(Array(16).fill(agent(loads)), turns(16).slice(0, 48_000)) },
    { name: "one agent with no call, 100,000 moves", bytes: script([agent([])], turns(1)) },
    { name: "16 agents that wait", bytes: script(Array(16).fill(agent(waits)), turns(16)) },
    { name: "too long", bytes: Buffer.alloc(TOO_LONG, " ") },
    { name: "nested too deep", bytes: Buffer.from("[".repeat(500_000)) },
    { name: "empty", bytes: Buffer.alloc(0) },
    { name: "no text", bytes: Buffer.from([0xff, 0xfe, 0]) },
  ];
}

const FILE = fileURLToPath(new URL("futex-mutex.json", EXAMPLES));
const NOWHERE = "/nowhere/script.json";
const searched = (name) => fileURLToPath(new URL(`${name}.json`, SEARCHES));
const AUTOMATA = searched("late-notify");

/** Command lines whose words decide what is written. `race` is done by the program alone. */
export const COMMAND_LINES = [
  [], ["--help"], ["-h"], ["help"], ["--version"], ["-V"], ["help", "replay"], ["nothing"], ["--nothing"],
  ["replay", "--help"], ["race", "--help"], ["judge", "--help"], ["check", "--help"], ["search", "--help"],
  ["replay", FILE], ["replay", "-"], ["replay", "--", FILE], ["replay", FILE, FILE], ["replay", "--format=json", FILE],
  ["replay", ""], ["replay", NOWHERE], ["replay", "/nowhere/with\nline"], ["replay", "\u00e9t\u00e9.json"],
  ["replay", "--nothing"], ["replay", "--format"], ["replay", "--format", "nothing"],
  ["replay", "--format", "\u{1f600}"],
  ["replay", "--finish", "--finish"], ["replay", "--acts=1"],
  ["check", FILE], ["check", NOWHERE], ["check", "--explain"],
  ["judge", FILE], ["judge", "--format", "svg"], ["judge", "--trace", FILE], ["judge", "--trace", NOWHERE],
  ["judge", "--trace", "--finish"], ["judge", "--trace", "--explain"],
  ["race"], ["race", FILE], ["race", "--share", "nothing"], ["race", "--share", "lock", "--spins", "1001"],
  ["race", "--share", "ring", "--mix", "-1"],
  ["search", AUTOMATA], ["search", "--states", AUTOMATA], ["search", "--format", "json", "--states", AUTOMATA],
  ["search", "--timeouts", "last", AUTOMATA], ["search", "--timeouts", "never", "--format", "json", AUTOMATA],
  ["search", "--limit", "3", AUTOMATA], ["search", "--limit", "4294967295", searched("mutex-of-3-agents")],
  ["search", FILE], ["search", "--explain", FILE], ["search", NOWHERE], ["search"],
  ["search", "--limit", "0", AUTOMATA],
  ["search", "--timeouts", "late", AUTOMATA], ["search", "--finish"],
  ["search", "--format", "script", AUTOMATA], ["search", "--format", "script", "--failure", "1", "--states", AUTOMATA],
  ["search", "--format", "script", "--failure", "2", AUTOMATA], ["search", "--format", "script", searched("torn-read")],
  ["search", "--format", "script", "--failure", "0", AUTOMATA], ["search", "--format", "script", FILE],
];
