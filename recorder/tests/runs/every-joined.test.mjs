// `--all` of agents that look at their numbers: those that do the same at the same lines go by one automaton.

import assert from "node:assert/strict";
import { test } from "node:test";
import { fileURLToPath, pathToFileURL } from "node:url";
import { learnApart } from "../../lib/every/learning/apart.mjs";
import { searched } from "../../lib/every/search/searched-file.mjs";
import { everySchedule } from "../../recorder.mjs";
import { FEW_WORKERS, moduleOf } from "../helpers/common.mjs";

const SEMAPHORE = new URL("../../examples/semaphore.agents.mjs", import.meta.url);

/** @param {string} body of each of three agents, `self` is its number @returns {string} */
const agents = (body) => `export const setup = { agents: 3, buffers: [16] };
export default function agent({ buffers, agent: self }) {
  const words = new Int32Array(buffers[0]);
  ${body}
}`;

/** Learns a module in a thread of its own, and makes no runs of it. @param {string} url @param {object} [more] */
const learned = (url, more = {}) => learnApart({
  module: url, args: [], place: {}, timeouts: "early", limit: 100_000, within: 300, ...more,
}, { seconds: 20 });

/** Of bodies by whose automata the agents go, and what is found. @type {[string, number[], string[]][]} */
const BODIES = [
  ["Atomics.add(words, self < 3 ? 0 : 1, 1);", [0, 0, 0], []],
  ["if (self === 0) Atomics.store(words, 0, 1);\n  Atomics.add(words, 1, 1);", [0, 1, 1], []],
  ["Atomics.add(words, self % 2, 1);", [0, 1, 0], []],
  ["Atomics.add(words, 0, self);", [0, 1, 2], []],
  ["Atomics.wait(words, 0, 0, 1 + (self === 0));", [0, 1, 1], []],
  ["if (self === 1) Atomics.add(words, 0, 1);\n  else Atomics.add(words, 0, 1);", [0, 1, 0], []],
  // Only one that comes last shows what agent 2 does.
  ["if (Atomics.add(words, 0, 1) === 2 && self === 2) Atomics.store(words, 1, 1);", [0, 0, 1], []],
  ["if (Atomics.add(words, 0, 1) === 2) throw new Error(['one', 'one', 'other'][self]);", [0, 0, 1],
    ["threw Error: one", "threw Error: other"]],
  ["if (self < 3) words[2] = 1;", [0, 0, 0], ["race agents.mjs:4:26 and agents.mjs:4:26"]],
  // The same write, at other lines.
  ["if (self === 0) words[2] = 1;\n  else words[2] = 1;", [0, 1, 1],
    ["race agents.mjs:4:28 and agents.mjs:5:17", "race agents.mjs:5:17 and agents.mjs:5:17"]],
];

test("agents go by one automaton only if all of what they do is the same", async (context) => {
  for (const [body, wanted, found] of BODIES) {
    const url = pathToFileURL(moduleOf(context, agents(body))).href;
    const { edges, file, findings, hasLikes, isClosed, isShared, result } = await learned(url);
    assert.deepEqual([isClosed, isShared, hasLikes], [true, false, new Set(wanted).size < 3], body);
    assert.deepEqual(file.agents.map(({ automaton }) => Number(automaton.slice("automaton_".length))), wanted, body);
    assert.deepEqual(findings.map(({ kind, text }) => `${kind} ${text}`).sort(), found, body);
    assert.deepEqual(searched(file, { timeouts: "early", limit: 100_000 }), result, body);
    // What each agent does is learned again.
    assert.deepEqual([...new Set(edges.map(({ automaton }) => automaton))], [0, 1, 2], body);
  }
});

test("an agent that can't block doesn't go by the automaton of one that can", async (context) => {
  const url = pathToFileURL(moduleOf(context, agents("if (self < 3) Atomics.wait(words, 0, 0, 1);"))).href;
  const { file } = await learned(url, { place: { noBlock: [1] } });
  assert.deepEqual(file.agents.map(({ automaton }) => automaton), ["automaton_0", "automaton_1", "automaton_0"]);
});

test("a semaphore of which agent 0 hands out the permits: the others are alike, also in real runs", async () => {
  const { closed, found, areAlike, realRuns, searchProved, states } = await everySchedule({
    ...FEW_WORKERS, module: fileURLToPath(SEMAPHORE), agents: 3, seeds: 20,
  });
  assert.deepEqual([closed, found, areAlike, realRuns, searchProved, states], [true, [], true, 20, true, 11_240]);
});
