// The run of a program in words and on its page: its threads, and messages that are sent and received.

import assert from "node:assert/strict";
import { test } from "node:test";
import { fileURLToPath, pathToFileURL } from "node:url";
import { sendersIn } from "../../lib/keeping/message-senders.mjs";
import { runDataOf } from "../../lib/keeping/kept-page.mjs";
import { wordsText } from "../../lib/keeping/program-words.mjs";
import { Views } from "../../page/elements.mjs";
import { Run } from "../../page/model.mjs";
import { Stepper } from "../../page/steps.mjs";
import { explore, record } from "../../recorder.mjs";
import { simulated } from "../helpers/simulate.mjs";
import { runsOf } from "../helpers/whole-programs.mjs";

/** An entry of a notify that wakes nobody. @param {number} agent @param {number} block @param {number} byte */
const notified = (agent, block, byte) =>
  /** @type {any} */ ({ what: "act", agent, does: ["notify", "Int32_b3", byte / 4, 0], place: { block, byte } });

test("the sender of a message is the first thread at its place; a place of several messages says nothing", () => {
  const entries = [notified(0, 3, 0), notified(1, 3, 4), notified(1, 3, 0), notified(0, 0, 8), notified(1, 3, 4)];
  assert.deepEqual(sendersIn(entries), [0, 1]);
  assert.equal(sendersIn([...entries, notified(1, 3, 0)]), undefined);
});

/** The first run of a program that has unordered accesses. @param {string} program */
async function firstRace(program) {
  const options = { program, seeds: 50, trace: true, failFast: true, programOutput: /** @type {const} */ ("none") };
  for await (const outcome of explore(options)) if (outcome.ending === "race") return outcome;
  return assert.fail("no run has unordered accesses");
}

test("a program's run in words has its threads, its messages with their lines, and the finding", async () => {
  const program = fileURLToPath(new URL("../programs/hand-over/too-soon.mjs", import.meta.url));
  const outcome = await firstRace(program);
  const { output } = simulated(["replay", "--format", "json"], outcome.script);
  const module = pathToFileURL(program).href;
  const lines = wordsText(output, outcome, module).split("\n");
  const started = "too-soon-worker.mjs, started at too-soon.mjs:7:1";
  assert.deepEqual(lines.slice(0, 4),
    [`seed ${outcome.seed} of too-soon.mjs: race`, "agent 0: too-soon.mjs", `agent 1: ${started}`, ""]);
  assert.match(lines[4], /^1 0 sends message 0, at too-soon\.mjs:7:1$/);
  const acts = lines.slice(4).map((line) => line.replace(/^\S+ /, ""));
  assert.ok(acts.includes("1 receives message 0"));
  const wrote = "1 writes Uint8_b0_at4[4], without Atomics: changes Uint8_b0_at4[4] from 0 to 111";
  assert.ok(acts.includes(`${wrote}, at too-soon-worker.mjs:7:12`));
  assert.equal(acts.filter((line) => /(?:sends|receives) message/.test(line)).length % 2, 0);
  assert.deepEqual(lines.slice(-2), [outcome.detail, ""]);
  assert.ok(!lines.some((line) => line.includes("Int32_b3")));
  const data = runDataOf(outcome, output, module);
  assert.deepEqual([data.threads, data.senders?.[0]], [["", started], 0]);
  const texts = new Stepper(data, new Views(data)).all().map(({ text, answer }) => `${text}${answer}`);
  assert.ok(texts.includes("sends message 0") && texts.includes("receives message 0"));
});

/** A main thread and a worker whose event loops have tasks of each kind. */
const TASKS = {
  "main.mjs": `import { Worker, MessageChannel } from "node:worker_threads";
import { readFile } from "node:fs";
const words = new Int32Array(new SharedArrayBuffer(4));
const interval = setInterval(() => clearInterval(interval), 3);
new Worker(new URL("./worker.mjs", import.meta.url), { workerData: words }).on("exit", () => {
  readFile(new URL(import.meta.url), () => setImmediate(() => new MessageChannel().port1.close()));
});`,
  "worker.mjs": `import { workerData as words } from "node:worker_threads";
setTimeout(() => Atomics.add(words, 0, 1), 4);
Atomics.add(words, 0, 2);`,
};

test("tasks are in the words, on the page and beside the trace, but in no script or trace", async (context) => {
  const [outcome] = await runsOf(context, TASKS);
  const { tasks = [], trace = "", script = "" } = outcome;
  const texts = tasks.map(({ agent, text, source }) => `${agent} ${text}, at ${source}`);
  assert.deepEqual([...texts].sort(), [
    "0 has closed a port, at main.mjs:6:90", "0 has the result of readFile, at main.mjs:6:3",
    "0 runs an immediate, at main.mjs:6:44",
    "0 runs an interval of 3 ms, at main.mjs:4:18", "1 runs a timer of 4 ms, at worker.mjs:2:1",
  ]);
  assert.doesNotMatch(trace + script, /timer|interval|readFile|immediate|task/);
  const { output } = simulated(["replay", "--format", "json"], script);
  const lines = wordsText(output, outcome, "file:///main.mjs").split("\n");
  for (const text of texts) {
    const said = `- ${text.replace("readFile, at", "readFile, begun at")}`;
    assert.equal(lines.filter((line) => line === said).length, 1, said);
  }
  const timer = lines.indexOf("- 1 runs a timer of 4 ms, at worker.mjs:2:1");
  const adds = lines.flatMap((line, at) => (/ 1 add\(/.test(line) ? [at] : []));
  assert.deepEqual([adds.length, adds[0] < timer && timer < adds[1]], [2, true]);
  const run = new Run(runDataOf(outcome, output, "file:///main.mjs"));
  const shown = run.steps.filter(({ what }) => what === "task");
  assert.deepEqual(shown.map(({ agent, text, place }) => `${agent} ${text}, at ${run.data.places[place]}`), texts);
  assert.deepEqual(run.data.files.map(({ file }) => file), ["main.mjs", "worker.mjs"]);
  // The block of messages isn't the program's memory.
  assert.deepEqual(run.rows.map(({ name }) => name), ["Int32_b0"]);
});

test("a task comes before its events, also if some of these aren't shown", () => {
  const event = (number) => ({ event: number, agent: 0, call: 0, does: "read", block: 0, byte: 0, size: 4, read: true,
    write: false, source: null });
  const trace = [0, 3, 7].map((number) => `${JSON.stringify(event(number))}\n`).join("");
  const tasks = [0, 1, 4, 8].map((before) => ({ event: before, agent: 0, text: `task ${before}`, source: null }));
  const outcome = { seed: 1, ending: "finished", detail: "", races: [], progress: [{ returned: 0, calls: 0 }],
    script: '{"blocks":[4],"views":[]}' };
  const data = runDataOf(/** @type {any} */ ({ ...outcome, trace, tasks }), "", "file:///main.mjs");
  const what = new Stepper(data, new Views(data)).all().map(({ what: each, text }) => (each === "task" ? text : each));
  assert.deepEqual(what, ["start", "task 0", "ordinary", "task 1", "ordinary", "task 4", "ordinary", "task 8", "end"]);
});

test("a thread that sends to itself sends first, and a module of agents has no messages", async () => {
  const program = new URL("../programs/channels/in-order.mjs", import.meta.url);
  const outcome = await record({ program, trace: true, programOutput: "none" });
  const { output } = simulated(["replay", "--format", "json"], outcome.script);
  const data = runDataOf(outcome, output, program.href);
  const steps = new Stepper(data, new Views(data)).all();
  const kinds = new Map();
  for (const { text } of steps) {
    const [, kind, message] = /^(sends|receives) message (\d+)$/.exec(text) ?? [];
    if (message !== undefined) kinds.set(message, `${kinds.get(message) ?? ""}${kind} `);
  }
  assert.ok(kinds.size > 0);
  for (const each of kinds.values()) assert.match(each, /^sends (?:receives )?$/);
  const plain = new Stepper({ ...data, senders: undefined }, new Views(data)).all();
  assert.ok(!plain.some(({ text }) => /message/.test(text)));
});
