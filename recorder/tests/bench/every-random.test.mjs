// The benchmark of random modules against a reference: it finds what is wrong, and little is wrong.

import assert from "node:assert/strict";
import { test } from "node:test";
import { randomJudged } from "../../bench/every-random.mjs";
import { faultsOf } from "../../bench/judged.mjs";
import { Reference } from "../../bench/reference.mjs";

/** @param {string} body of an agent @returns {string} a module of two */
const moduleOf = (body) => `export const setup = { agents: 2, buffers: [8] };
export default function agent({ buffers, agent }) {
  const words = new Int32Array(buffers[0]);
  ${body}
}
`;

test("the reference goes through all schedules", () => {
  const adds = new Reference(moduleOf("Atomics.store(words, 0, Atomics.load(words, 0) + 1);")).run();
  assert.deepEqual([...adds.finals].sort(), ["0100000000000000", "0200000000000000"]);
  assert.deepEqual([adds.isPartial, adds.hasDeadlock, adds.hasRace], [false, false, false]);
  const waits = new Reference(moduleOf("if (agent === 0) Atomics.wait(words, 0, 0); else words[1] = 1;")).run();
  assert.deepEqual([waits.hasDeadlock, waits.finals.size, waits.hasRace], [true, 0, false]);
  const races = new Reference(moduleOf("words[agent] = words[0];")).run();
  assert.deepEqual([races.hasDeadlock, races.hasRace], [false, true]);
  const late = "if (Atomics.add(words, 0, 1) === 1) throw new Error(`${agent} is late`);";
  const throws = new Reference(moduleOf(late)).run();
  assert.deepEqual([...throws.throws].sort(), ["Error: 0 is late", "Error: 1 is late"]);
});

test("what `--all` says otherwise than the reference is named", () => {
  const mine = new Reference(moduleOf("Atomics.store(words, 0, Atomics.load(words, 0) + 1);")).run();
  const right = {
    kind: /** @type {const} */ ("closed"), said: "", finals: [...mine.finals], finalCount: 2, throws: [], checks: [],
    hasDeadlock: false, hasRace: false,
  };
  assert.deepEqual(faultsOf(mine, right), []);
  assert.deepEqual(faultsOf(mine, { ...right, finals: ["0100000000000000"], finalCount: 1 }), [
    "a final state isn't found: 0200000000000000", "1 final states, and there are 2",
  ]);
  const more = { ...right, hasDeadlock: true, hasRace: true, throws: ["Error: 5"], checks: ["returned false"] };
  assert.equal(faultsOf(mine, more).length, 4);
});

test("random modules are learned as the reference has them, and some are judged by the command", async () => {
  /** @type {string[]} */
  const said = [];
  const { counts } = await randomJudged({ from: 0, to: 30, isLearned: true }, (line) => said.push(line));
  assert.equal(counts.false, undefined, said.join("\n"));
  assert.ok(counts.closed > counts.drawn / 2, said.join("\n"));
  const { counts: judged } = await randomJudged({ from: 30, to: 33 }, (line) => said.push(line));
  const wrong = [judged.false, judged.contradiction, judged.broken];
  assert.deepEqual(wrong, [undefined, undefined, undefined], said.join("\n"));
});
