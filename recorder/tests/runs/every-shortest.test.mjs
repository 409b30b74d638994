// The schedules that are shown: with as few early ends as can be, then as few changes of agents, then as few acts.

import assert from "node:assert/strict";
import { readFileSync, readdirSync } from "node:fs";
import { test } from "node:test";
import { actorOf, chosenIn } from "../../lib/every/search/chosen-acts.mjs";
import { programOf } from "../../lib/every/search/file.mjs";
import { sortAgents } from "../../lib/every/search/likes.mjs";
import { DOES } from "../../lib/every/search/nodes.mjs";
import { Search } from "../../lib/every/search/search.mjs";
import { shortestTo } from "../../lib/every/search/shortest.mjs";
import { everySchedule } from "../../recorder.mjs";
import { moduleOf } from "../helpers/common.mjs";

const EXAMPLES = new URL("../../../tests/search/examples/", import.meta.url);
const FILES = readdirSync(EXAMPLES).filter((name) => name.endsWith(".json") && !name.endsWith(".result.json"));

/** States of larger searches aren't compared. */
const MOST_STATES = 600;

/** @typedef {[number, number, number]} Costs early ends, changes of agents, acts */

/** @param {Costs} one @param {Costs} other @returns {number} */
const order = (one, other) => one[0] - other[0] || one[1] - other[1] || one[2] - other[2];

/** @param {import("../../lib/every/search/world.mjs").World} world @param {number} agent that acts in its state */
function isEarly(world, agent) {
  return world.waits(agent) && world.nodes.some((_, other) => world.canAct(other));
}

/**
 * The least costs of a schedule to each state: they are made better until none can be.
 * @param {Search} search that has run
 * @returns {Costs[]} by states
 */
function leastCosts({ count, ends, starts, taken, targets, world }) {
  /** @type {Map<number, Costs>[]} of each state by the agent that acted last, as the state has it; -1: none did */
  const known = Array.from({ length: count }, () => new Map());
  known[0].set(-1, [0, 0, 0]);
  for (let isBetter = true; isBetter;) {
    isBetter = false;
    for (let state = 0; state < count; state += 1) {
      world.load(state);
      for (let at = starts.items[state]; at < starts.items[state + 1]; at += 1) {
        const agent = actorOf(taken.items[at]);
        const to = known[targets.items[at]];
        for (const [last, [early, changes, acts]] of [...known[state]]) {
          const isChange = last !== agent && last !== -1;
          /** @type {Costs} */
          const costs = [early + Number(isEarly(world, agent)), changes + Number(isChange), acts + 1];
          const before = to.get(ends.items[at]);
          if (before !== undefined && order(before, costs) <= 0) continue;
          to.set(ends.items[at], costs);
          isBetter = true;
        }
      }
    }
  }
  return known.map((all) => [...all.values()].sort(order)[0]);
}

/**
 * @param {Search} search
 * @param {number[]} way the acts
 * @returns {{ costs: Costs, state: number }} where they lead
 */
function followed({ world }, way) {
  world.restart();
  /** @type {Costs} */
  const costs = [0, 0, way.length];
  way.forEach((act, at) => {
    const agent = actorOf(act);
    if (isEarly(world, agent)) costs[0] += 1;
    if (at > 0 && actorOf(way[at - 1]) !== agent) costs[1] += 1;
    assert.ok(world.step(agent, chosenIn(act)));
  });
  sortAgents(world, world.nodes.map((_, agent) => agent));
  return { costs, state: world.save() };
}

/** @param {Search} search that has run */
function compare(search) {
  const least = leastCosts(search);
  const ways = shortestTo(search, search.count, (state) => [`${state}`]);
  assert.equal(ways.size, search.count);
  for (const [name, { way, changes, isEarly: hasEarly, state }] of ways) {
    assert.equal(`${state}`, name);
    const { costs, state: reached } = followed(search, way);
    assert.deepEqual([reached, costs, changes, hasEarly], [state, least[state], least[state][1], least[state][0] > 0]);
  }
}

test("of each state of the examples the schedule is the least one", () => {
  const searches = FILES.map((file) => {
    const program = programOf(JSON.parse(readFileSync(new URL(file, EXAMPLES), "utf8")));
    const search = new Search(program, { timeouts: "early", limit: MOST_STATES });
    search.run();
    return search;
  });
  const whole = searches.filter(({ isClosed, lost }) => isClosed && lost === undefined);
  assert.ok(whole.length >= 8, `${whole.length} of ${searches.length} are compared`);
  const chooses = ({ world: { program } }) => program.nodes.some(({ does }) => does === DOES.CHOOSE);
  assert.ok(whole.some(chooses), "one of them chooses");
  for (const search of whole) compare(search);
});

test("what needs a time to pass comes last, and says so", async (context) => {
  const module = moduleOf(context, `export const setup = { agents: 2, buffers: [8] };
export default function agent({ buffers, agent: self }) {
  const words = new Int32Array(buffers[0]);
  if (self === 1) {
    Atomics.store(words, 1, 1);
    Atomics.notify(words, 0);
    return;
  }
  if (Atomics.wait(words, 0, 0, 50) === "timed-out" && Atomics.load(words, 1) === 0) throw new Error("early");
  Atomics.wait(words, 1, 1);
}
`);
  const { found } = await everySchedule({ module, seeds: 1 });
  assert.deepEqual(found.map(({ kind, isEarly: needsTime, onlyIf }) => [kind, needsTime, onlyIf]), [
    ["deadlock", false, null], ["threw", true, "only if 50 ms pass before agent 1's next call"],
  ]);
});
