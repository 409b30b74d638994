// Compares the module with the program: what both write, with which status. It also refuses the module memory.
//
// usage: node compare.mjs MODULE REFUSING PROGRAM
//
// REFUSING is the module with the heap of refusing.c. Each difference is printed. The last line says how many calls
// were compared, and how many differ. The status is 1 if one does.

import { spawn } from "node:child_process";
import { readFileSync } from "node:fs";
import { availableParallelism } from "node:os";
import { limited } from "../../recorder/tests/helpers/limited-module.mjs";
import { Instance, Simulator } from "../../recorder/wasm/simulator.mjs";
import { COMMAND_LINES, SCRIPT_WAYS, SEARCH_WAYS, TRACE_WAYS, automata, besideExample } from "./inputs.mjs";
import { cases, changedAutomata, examples, largeInputs, randomScripts, randomTraces } from "./inputs.mjs";

/** @typedef {import("../../recorder/wasm/simulator.mjs").CommandResult} CommandResult */
/** @typedef {import("./inputs.mjs").Input} Input */

const [, , modulePath, refusingPath, program] = process.argv;
const RANDOM_SCRIPTS = 500;
const RANDOM_TRACES = 150;
const MOST_SHOWN = 20;
// Room for all that a search of an example writes, and the least room that the host gives.
const MUCH_ROOM = 2 ** 24;
const LEAST_ROOM = 2 ** 18;
// The example of which each state is written in more than the least room.
const LARGEST = "mutex-of-3-agents-and-3-rounds.json";
const END_OF_LINE = 10;
// In pages of 64 KiB. The module begins with 17.
const MEMORIES = [17, 18, 20, 22, 24, 28, 32, 40, 48, 64, 96, 128, 192, 256, 384, 512, 768, 1024, 1536];
const OUT_OF_MEMORY = "sabsim: 5 OutOfMemory\n";
/** How the first line of a search ends that memory has ended. */
const RAN_OUT = /(; memory ran out|"why":"memory"})$/;
const NO_RACE =
  "sabsim: 9 NoThread\nraces in threads need the native program sabsim: this one is made for WebAssembly\n";
const NO_INPUT = new Uint8Array();

const counts = { calls: 0, different: 0, withoutMemory: 0, refused: 0 };

/** @param {string} what differs @param {unknown} [how] */
function differs(what, how = "") {
  counts.different += 1;
  if (counts.different <= MOST_SHOWN) console.log(`different: ${what} ${how}`);
}

/** @param {CommandResult} one @param {CommandResult} other */
const isSame = (one, other) =>
  one.status === other.status && Buffer.compare(one.output, other.output) === 0 && one.complaint === other.complaint;

/** @param {CommandResult} ended */
const shown = ({ status, output, complaint }) =>
  `${status}, ${output.length} bytes, ${JSON.stringify(complaint.slice(0, 100))}`;

/**
 * Runs the program.
 * @param {string[]} words @param {Uint8Array} input
 * @returns {Promise<CommandResult>}
 */
function native(words, input) {
  return new Promise((resolve, reject) => {
    const child = spawn(program, words);
    const [output, complaint] = [[], []];
    child.stdout.on("data", (part) => output.push(part));
    child.stderr.on("data", (part) => complaint.push(part));
    // It may end before it has read all.
    child.stdin.on("error", () => {});
    child.on("error", reject);
    child.on("close", (status) =>
      resolve({ status: status ?? -1, output: Buffer.concat(output), complaint: Buffer.concat(complaint).toString() }),
    );
    child.stdin.end(input);
  });
}

/** @param {string[]} words of a job @returns {import("../../recorder/wasm/simulator.mjs").SimulatorJob} */
function jobOf([command, ...options]) {
  const at = options.indexOf("--format");
  return {
    job: options.includes("--trace") ? "judge-trace" : command,
    format: at < 0 ? "plain" : options[at + 1],
    acts: options.includes("--acts"),
    finish: options.includes("--finish"),
    explain: options.includes("--explain"),
  };
}

/** @param {string[]} words of a search @returns {import("../../recorder/wasm/simulator.mjs").SearchJob} */
function searchOf(words) {
  const behind = (option, usual) => (words.includes(option) ? words[words.indexOf(option) + 1] : usual);
  return {
    timeouts: behind("--timeouts", "early"),
    limit: Number(behind("--limit", 1_000_000)),
    format: behind("--format", "plain"),
    states: words.includes("--states"),
    explain: words.includes("--explain"),
  };
}

/**
 * Does what words ask for, by the export that takes numbers.
 * @param {Simulator | Instance} host @param {string[]} words @param {Uint8Array} bytes
 * @param {number} [room] for what a search writes
 * @returns {CommandResult}
 */
const done = (host, words, bytes, room = LEAST_ROOM) =>
  words[0] === "search" ? host.search(searchOf(words), bytes, room) : host.run(jobOf(words), bytes);

/** @param {() => CommandResult} call @returns {CommandResult} a trap as a status that no program has */
function attempted(call) {
  try {
    return call();
  } catch (error) {
    return { status: -2, output: NO_INPUT, complaint: `${error}` };
  }
}

/** Does the calls of a list side by side. */
async function each(list, call) {
  const left = list.entries();
  const lane = async () => {
    for (const [, it] of left) await call(it);
  };
  await Promise.all(Array.from({ length: availableParallelism() }, lane));
}

const module = new WebAssembly.Module(readFileSync(modulePath));
const simulator = new Simulator(module);

/** Compares two exports with the program on an input. @param {Input} input @param {string[]} words */
async function compareOn({ name, bytes }, words) {
  const wanted = await native(words, bytes);
  const calls = [() => done(simulator, words, bytes, MUCH_ROOM), () => simulator.command(words, () => bytes)];
  for (const came of calls.map(attempted)) {
    counts.calls += 1;
    const how = `${shown(came)}; the program: ${shown(wanted)}`;
    if (!isSame(came, wanted)) differs(`${words.join(" ")} of ${name}:`, how);
  }
}

async function compareInputs() {
  const scripts = [...cases(), ...randomScripts(RANDOM_SCRIPTS), ...largeInputs()];
  const traces = [...randomTraces(RANDOM_TRACES), ...examples(), ...largeInputs()];
  const files = [...automata(), ...changedAutomata(), ...examples(), ...largeInputs()];
  const pairs = [
    ...scripts.flatMap((input) => SCRIPT_WAYS.map((words) => ({ input, words }))),
    ...traces.flatMap((input) => TRACE_WAYS.map((words) => ({ input, words }))),
    ...files.flatMap((input) => SEARCH_WAYS.map((words) => ({ input, words }))),
  ];
  await each(pairs, ({ input, words }) => compareOn(input, words));
  return `${scripts.length} scripts, ${traces.length} traces, ${files.length} files of automata`;
}

/** What has no room is left out at the end of a line, and how much that is, is reported. */
async function compareLeftOut() {
  const { bytes } = automata().find(({ name }) => name === LARGEST);
  for (const words of SEARCH_WAYS.filter((way) => way.includes("--states"))) {
    counts.calls += 1;
    const [came, wanted] = [done(new Simulator(module), words, bytes), await native(words, bytes)];
    const size = wanted.output.lastIndexOf(END_OF_LINE, LEAST_ROOM - 1) + 1;
    const expected = { ...wanted, output: wanted.output.subarray(0, size) };
    const isReported = came.leftOut === wanted.output.length - size && came.leftOut > 0;
    if (!isReported || !isSame(came, expected)) differs(`${words.join(" ")} without room:`, shown(came));
  }
}

/** What is kept beside the examples, in every format. */
function compareExamples() {
  const kept = { plain: "report", explained: "explained", json: "jsonl", svg: "svg" };
  for (const { name, bytes } of examples()) {
    for (const [format, ending] of Object.entries(kept)) {
      counts.calls += 1;
      const { output } = simulator.run({ job: "replay", format }, bytes);
      if (Buffer.compare(output, besideExample(name, ending)) !== 0) differs(`${name} as ${format}`);
    }
  }
}

async function compareCommandLines() {
  const input = examples()[0].bytes;
  const read = (file) => (file === undefined ? input : readFileSync(file));
  for (const words of COMMAND_LINES) {
    counts.calls += 1;
    const [came, wanted] = [attempted(() => simulator.command(words, read)), await native(words, input)];
    if (!isSame(came, wanted)) differs(JSON.stringify(words), `${shown(came)}; the program: ${shown(wanted)}`);
  }
  for (const share of ["lock", "ring"]) {
    counts.calls += 1;
    const came = attempted(() => simulator.command(["race", "--share", share], read));
    const wanted = { status: 4, output: NO_INPUT, complaint: NO_RACE };
    if (!isSame(came, wanted)) differs(`race --share ${share}`, shown(came));
  }
}

/** Whether a search ended since memory ran out. @param {CommandResult} came */
function isCut(came) {
  const [first] = Buffer.from(came.output).toString().split("\n", 1);
  return (came.status === 5 || came.status === 6) && came.complaint === "" && RAN_OUT.test(first);
}

/**
 * Whether a call without enough memory ended as it may: as with memory, or with no output and status 4; or memory ended
 * its search; or only the explanation is missing.
 * @param {CommandResult} came @param {CommandResult} wanted
 */
function isAllowed(came, wanted) {
  if (isSame(came, wanted) || isCut(came)) return true;
  if (came.output.length > 0) return false;
  if (came.status === 4) return came.complaint === OUT_OF_MEMORY;
  const isPart = came.complaint.endsWith("\n") && wanted.complaint.startsWith(came.complaint);
  return came.status === 1 && wanted.status === 1 && isPart;
}

/** Each call with memories of several sizes. @param {Input[]} inputs @param {string[][]} ways */
function compareWithSmallMemories(inputs, ways) {
  const bytes = readFileSync(modulePath);
  const modules = MEMORIES.map((pages) => new WebAssembly.Module(limited(bytes, pages)));
  const small = modules.map((module, at) => ({ pages: MEMORIES[at], host: new Simulator(module) }));
  // A host that has had more room keeps it, and a search fills all of it.
  const large = new Simulator(module);
  for (const input of inputs) {
    for (const words of ways) {
      const wanted = done(large, words, input.bytes);
      for (const { pages, host } of small) {
        counts.calls += 1;
        const came = attempted(() => done(host, words, input.bytes));
        counts.withoutMemory += Number(came.complaint === OUT_OF_MEMORY);
        if (!isAllowed(came, wanted)) differs(`${words.join(" ")} of ${input.name} in ${pages} pages:`, shown(came));
      }
    }
  }
}

/** Each request for memory refused in turn. @param {Input} input @param {string[]} words */
function compareRefused(input, words) {
  const instance = new Instance(new WebAssembly.Module(readFileSync(refusingPath)));
  const wanted = done(simulator, words, input.bytes);
  for (let request = 1; ; request++) {
    instance.exports.refuse_request(BigInt(request));
    const came = attempted(() => done(instance, words, input.bytes));
    if (instance.exports.requests_left() > 0n) return;
    counts.calls += 1;
    counts.refused += 1;
    if (isAllowed(came, wanted)) continue;
    differs(`${words.join(" ")} of ${input.name}, request ${request} refused:`, shown(came));
    return;
  }
}

const compared = await compareInputs();
compareExamples();
await compareCommandLines();
await compareLeftOut();
const [few, traces] = [[...examples(), ...randomScripts(20)], randomTraces(20)];
const files = automata().filter(({ name }) => !name.startsWith("mutex"));
compareWithSmallMemories([...few, ...largeInputs().slice(0, 2)], SCRIPT_WAYS);
compareWithSmallMemories(traces, TRACE_WAYS);
compareWithSmallMemories(automata(), SEARCH_WAYS);
for (const input of few) for (const words of SCRIPT_WAYS) compareRefused(input, words);
for (const input of traces) for (const words of TRACE_WAYS) compareRefused(input, words);
for (const input of files) for (const words of SEARCH_WAYS) compareRefused(input, words);
console.log(
  `compared: ${counts.calls} calls (${compared}; ${counts.withoutMemory} ended without memory, ` +
    `${counts.refused} had one request for memory refused), ${counts.different} differ`,
);
process.exitCode = counts.different > 0 ? 1 : 0;
