// The order in which the agents of a module begin, and when: drawn in some seeds, so that what depends on a late start
// is found where accesses aren't watched. Other seeds are as they were.

import assert from "node:assert/strict";
import { describe, it } from "node:test";
import { Board } from "../../lib/board/board.mjs";
import { waysOf } from "../../lib/board/strategy/ways.mjs";
import { PHASE } from "../../lib/memory/layout.mjs";
import { explore, record } from "../../recorder.mjs";
import { emptyMemory } from "../helpers/boards.mjs";
import { fileIn, temporaryFolder } from "../helpers/common.mjs";
import { seedsTo } from "../helpers/recorded.mjs";

const AGENTS = 4;
const SEEDS = 128;

/**
 * In which order agents begin, and after how many draws each, if each asks for a call when it has begun.
 * @param {number} seed
 * @param {{ row?: number[], isPilot?: boolean }} [how]
 */
function begun(seed, { row, isPilot = false } = {}) {
  const rules = { agents: AGENTS, ways: waysOf("uniform", true), maxMoves: 100_000, timeouts: 0.05 };
  const board = new Board(row === undefined ? emptyMemory() : Board.memory(), rules);
  /** @type {{ agent: number, draws: number }[]} */
  const order = [];
  let draws = 0;
  board.turn.start = (agent) => void order.push({ agent, draws });
  board.turn.give = () => { draws += 1; };
  if (row !== undefined) board.row.begin({ row, isExact: false });
  board.begin(seed, isPilot);
  let last = order[0].agent;
  while (order.length < AGENTS) {
    const before = order.length;
    board.line.become(last, PHASE.ASKS);
    if (board.pass(last)) draws += 1;
    board.did(last, 0);
    if (order.length > before) last = order[order.length - 1].agent;
  }
  return order;
}

const seeds = seedsTo(SEEDS);
const agentsOf = (/** @type {ReturnType<typeof begun>} */ order) => order.map(({ agent }) => agent).join("");

describe("agents of a module begin", () => {
  it("in turn and before all calls in three of four seeds and in pilots, else in an order that the seed draws", () => {
    const others = seeds.filter((seed) => agentsOf(begun(seed)) !== "0123"
      || begun(seed).some(({ draws }) => draws > 0));
    assert.ok(others.length > 28 && others.length <= SEEDS / 4, `${others.length}`);
    assert.ok(others.every((seed) => seed % 4 === 2));
    assert.ok(new Set(others.map((seed) => agentsOf(begun(seed)))).size > 12);
    assert.ok(seeds.every((seed) => agentsOf(begun(seed, { isPilot: true })) === "0123"));
  });

  it("late in one of sixteen seeds, in the same way each time", () => {
    const late = seeds.filter((seed) => begun(seed).some(({ draws }) => draws > 0));
    assert.ok(late.length > 5 && late.every((seed) => seed % 16 === 14), late.join());
    for (const seed of late) assert.deepEqual(begun(seed), begun(seed));
  });

  it("when a row wants them to move", () => {
    const late = seeds.find((seed) => begun(seed)[3].draws > 1) ?? 0;
    const { agent } = begun(late)[3];
    assert.equal(begun(late, { row: [agent, agent] })[3].draws, 0);
  });
});

/** What agent 0 reads before its first call isn't watched; agent 1 has written it before its first call, or by that. */
const MODULE = `export const setup = { agents: 2, buffers: [8] };
export default function agent({ agent, buffers, args }) {
  const words = new Int32Array(buffers[0]);
  const byCall = args[0] === "call";
  if (agent === 1) {
    if (!byCall) words[1] = 1;
    Atomics.store(words, byCall ? 1 : 0, 1);
  } else {
    const found = words[1];
    Atomics.load(words, 0);
    if (found === 1) throw new Error("agent 0 began late");
  }
}`;

describe("what depends on a late start", () => {
  for (const how of ["ordinary", "call"]) {
    const act = how === "call" ? "a call" : "an ordinary write";
    it(`is found after ${act} of another agent, and made again`, async (context) => {
      const module = fileIn(temporaryFolder(context), "late.agents.mjs", MODULE);
      const options = { module, args: [how], ordinary: /** @type {const} */ ("store") };
      const failing = [];
      for await (const outcome of explore({ ...options, seeds: "1..200" })) if (outcome.fails) failing.push(outcome);
      assert.ok(failing.length > 2, `${failing.length}`);
      assert.ok(failing.every(({ detail }) => /agent 0 threw Error: agent 0 began late/.test(detail)));
      const { fails, detail } = await record({ ...options, seed: failing[0].seed, shorten: true });
      assert.deepEqual([fails, /began late/.test(detail)], [true, true]);
    });
  }
});
