// What each agent is at in a deadlock, or at a limit, as data: in outcomes, and in summaries as JSON.

import assert from "node:assert/strict";
import { writeFileSync } from "node:fs";
import { test } from "node:test";
import { summaryText } from "../../lib/command/summary-text.mjs";
import { Summary } from "../../lib/command/summary.mjs";
import { explore, record } from "../../recorder.mjs";
import { commandHere } from "../helpers/command-here.mjs";
import { moduleOf } from "../helpers/common.mjs";

const MODULE = `
export const setup = { agents: 3, buffers: [12, 8], names: { LOCK: 1 } };
export default function agent({ buffers, agent, args: [way] }) {
  const [words, others] = buffers.map((buffer) => new Int32Array(buffer));
  for (let time = 0; time < (agent === 2 ? 30 : 1); time += 1) Atomics.load(words, 0);
  if (agent === 0) Atomics.wait(words, 1, 0);
  if (agent === 1) Atomics.wait(others, 1, 0);
  if (agent === 2 && way === "spins") while (Atomics.load(words, 2) === 0);
  if (agent === 2 && way === "counts") for (;;) Atomics.add(words, 2, 1);
  if (agent === 2 && way === "views") for (let at = 0; at < 12; at += 1) {
    for (let length = 1; length <= 12 - at; length += 1) Atomics.load(new Int8Array(buffers[0], at, length), 0);
  }
}
`;

const NOWHERE = { place: null, block: null, byte: null };

/** The line and the column of a call or an access, as an engine has them. @param {string} text of its own line */
function placeOf(text) {
  const lines = MODULE.split("\n");
  const line = lines.findIndex((each) => each.includes(text));
  const from = lines[line].indexOf(text);
  return { file: "agents.mjs", line: line + 1, column: from + Math.max(text.search(/(?<=Atomics\.)/), 0) + 1 };
}

const waits = (agent, place, block, text) =>
  ({ agent, does: "waits", call: 1, place, block, byte: 4, ...placeOf(text) });

/** Each agent's wait, in whatever order they have come. */
const WAITING = [waits(0, "LOCK", 0, "Atomics.wait(words"), waits(1, null, 1, "Atomics.wait(others")];

const at = (does, text) => ({ agent: 2, does, call: null, ...NOWHERE, ...placeOf(text) });

const SPIN = "Atomics.load(words, 2)";

/** What the agents are at in each way. */
const WAYS = {
  deadlock: WAITING, spins: [at("spins", SPIN), ...WAITING], counts: [at("runs", "Atomics.add"), ...WAITING],
};

/** The one that has met the limit stays first. */
const inOrder = (standing) => {
  const begin = standing.findIndex(({ does }) => does === "waits");
  return [...standing.slice(0, begin), ...standing.slice(begin).sort((one, other) => one.agent - other.agent)];
};

/** The first run in which two agents wait at the end. @param {object} options */
async function waitingOutcome(options) {
  const isWait = ({ does }) => does === "waits";
  const how = { seeds: 100, strategy: "uniform", agents: 3, everywhere: true, sabsim: false };
  for await (const outcome of explore({ ...how, ...options })) {
    if (outcome.standing?.filter(isWait).length === 2) return outcome;
  }
  return assert.fail("there is no such run");
}

test("an outcome has what each agent is at, in a deadlock and at a limit", async (context) => {
  const module = moduleOf(context, MODULE);
  for (const [way, expected] of Object.entries(WAYS)) {
    const { ending, standing } = await waitingOutcome({ module, args: [way] });
    assert.equal(ending, way === "deadlock" ? "deadlock" : "limit");
    assert.deepEqual(inOrder(standing), expected, way);
  }
  const body = "export const setup = { agents: 1, buffers: [4] };\n"
    + "export default ({ buffers }) => Atomics.load(new Int32Array(buffers[0]), 0);\n";
  writeFileSync(module, body);
  assert.equal((await record({ module, agents: 1, sabsim: false, everywhere: true })).standing, undefined);
});

test("agents that ask for a call when a limit is met are there too", async (context) => {
  const { standing } = await waitingOutcome({ module: moduleOf(context, MODULE), args: ["spins"], maxMoves: 200 });
  const asking = standing.find(({ agent }) => agent === 2);
  assert.deepEqual({ ...asking, call: null }, at("asks", SPIN));
  assert.ok(asking.call > 1, `${asking.call}`);
  assert.deepEqual(inOrder(standing.filter(({ does }) => does === "waits")), WAITING);
});

test("the summary has that of the first failing run as JSON, and so has a joined one", async (context) => {
  const small = ["--agents", "3", "--everywhere"];
  const words = [moduleOf(context, MODULE), "--seeds", "2..3", "--format", "json", ...small, "--", "deadlock"];
  const { stdout } = await commandHere(words);
  const summary = JSON.parse(stdout);
  assert.deepEqual(inOrder(summary.firstFailing.standing), WAITING);
  const joined = new Summary({ ordinary: "watch", races: "fail" });
  joined.join(summary);
  assert.deepEqual(joined.data().firstFailing, summary.firstFailing);
  assert.match(summaryText(summary), /agent 0 waits at LOCK: its call 1, /);
});

test("an agent that meets another limit is named; the limit of the moves is no agent's", async (context) => {
  const module = moduleOf(context, MODULE);
  const views = await waitingOutcome({ module, args: ["views"] });
  assert.match(views.detail, /^more than \d+ different typed arrays were used: agent 2 is at agents\.mjs:/);
  assert.deepEqual(views.standing[0], at("runs", "Atomics.load(new"));
  const { detail, standing } = await waitingOutcome({ module, args: ["spins"], maxMoves: 200 });
  assert.match(detail, /^more than 200 moves would be made/);
  assert.ok(standing.every(({ does }) => does === "waits" || does === "asks"), JSON.stringify(standing));
});
