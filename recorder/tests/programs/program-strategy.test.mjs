// How the moves of whole programs are drawn: what the tasks of event loops and messages conflict with, short times that
// are up early, and agents that are slow.

import assert from "node:assert/strict";
import { readFileSync } from "node:fs";
import { describe, it } from "node:test";
import { waysOf } from "../../lib/board/strategy/ways.mjs";
import { bytesAsked } from "../../lib/agent/effects.mjs";
import { MESSAGES, MESSAGE_BYTES, loopPlace } from "../../lib/memory/blocks.mjs";
import { placeNumber } from "../../lib/memory/known-places.mjs";
import { LOOP, PHASE } from "../../lib/memory/layout.mjs";
import { FLAG } from "../../lib/memory/log.mjs";
import { byteOf } from "../../lib/memory/recorded-memory.mjs";
import { Moves, TO_CHANNELS, toPort } from "../../lib/program/moves/moves.mjs";
import { emptyMemory } from "../helpers/boards.mjs";
import { seedsTo } from "../helpers/recorded.mjs";
import { startedBoard } from "../helpers/started-boards.mjs";
import { runsOf } from "../helpers/whole-programs.mjs";

const { WAITERS } = FLAG;
const SEEDS = 400;

const USUAL = { seed: 1, strategy: "uniform", agents: 3, isProgram: true, isMixed: true, timeouts: 0.05 };

/** A board of a program, or of a module's agents, all of which ask for a call. @param {object} [rules] */
function asking(rules = {}) {
  const { seed, strategy, agents, isProgram, isMixed, timeouts } = { ...USUAL, ...rules };
  const way = waysOf(strategy, true);
  // Of several ways a run takes one by its seed, also if they are alike.
  const ways = isMixed ? [...way, ...way] : way;
  const memory = emptyMemory();
  const board = startedBoard(agents, { seed, memory, ways, timeouts, early: isProgram ? 100 : undefined });
  for (let agent = 0; agent < agents; agent += 1) ask(board, agent, 400 + agent);
  return board;
}

function ask(board, agent, place) {
  board.strategy.asks(agent, place, place + 1, WAITERS);
  board.line.become(agent, PHASE.ASKS);
}

/** Who is drawn, one after the other, if each asks again. @param {Board} board @param {number} count */
function drawn(board, count) {
  return Array.from({ length: count }, () => board.strategy.next());
}

const allSeeds = Array.from({ length: SEEDS }, (_, seed) => seed);

describe("what conflicts", () => {
  const conflicts = (board, one, other) => board.strategy.asked.conflict(one, other);

  it("two messages to one thread do, and two to different threads don't", () => {
    const board = asking();
    ask(board, 0, loopPlace(2));
    ask(board, 1, loopPlace(2));
    assert.equal(conflicts(board, 0, 1), true);
    ask(board, 1, loopPlace(1));
    assert.equal(conflicts(board, 0, 1), false);
  });

  it("a message conflicts with a task of the thread that gets it, if that asks, waits for a time or was woken", () => {
    const board = asking();
    ask(board, 0, loopPlace(2));
    board.asksForTask(2);
    assert.equal(conflicts(board, 0, 2), true);
    board.rest(2, LOOP, 10);
    assert.equal(conflicts(board, 0, 2), true);
    board.rest(2, LOOP, undefined);
    assert.equal(board.line.notify(LOOP, 2, 1), 1);
    assert.equal(conflicts(board, 0, 2), true);
    assert.equal(conflicts(board, 1, 2), false);
  });

  it("a message to all channels of a name conflicts with a task of each thread, and one to one and to channels", () => {
    const board = asking();
    /** @type {any[]} */
    const made = [];
    const part = { accesses: { count: 0 } };
    const player = /** @type {any} */ ({ agent: 0, context: { board }, part, make: (call) => made.push(call) });
    new Moves(player, new SharedArrayBuffer(MESSAGE_BYTES)).send(it, TO_CHANNELS);
    const from = placeNumber(made[0].block, byteOf(made[0]));
    const to = from + bytesAsked(made[0]);
    board.strategy.asks(0, from, to, WAITERS);
    board.asksForTask(2);
    ask(board, 1, loopPlace(15));
    assert.deepEqual([conflicts(board, 0, 2), conflicts(board, 0, 1), conflicts(board, 1, 2)], [true, true, false]);
    board.strategy.asks(1, from, to, WAITERS);
    assert.equal(conflicts(board, 0, 1), true);
    // A port that is under way is no thread's.
    ask(board, 1, placeNumber(MESSAGES, 4 * toPort(0)));
    assert.equal(conflicts(board, 0, 1), false);
  });

  it("an agent that was woken in a call has nothing to be decided", () => {
    const board = asking();
    board.wait(2, 0, 400, undefined);
    board.line.notify(0, 400, 1);
    assert.equal(conflicts(board, 0, 2), false);
  });
});

describe("a short time", () => {
  /** In how many seeds an event loop's time is up first though two others can move. */
  const early = (milliseconds, rules) => allSeeds.filter((seed) => {
    const board = asking({ seed, ...rules });
    board.rest(2, LOOP, milliseconds);
    return board.strategy.next() === 2;
  }).length / SEEDS;

  it("is as likely to be up as anything else is to move, in more than half of the seeds", () => {
    const share = early(10, {});
    // A third in five of eight seeds, and hardly ever in the others.
    assert.ok(share > 0.16 && share < 0.27, `${share}`);
  });

  it("isn't up early if it is longer, if `--timeouts` is 0, or if agents of a module are run", () => {
    assert.ok(early(5_000, {}) < 0.03);
    assert.ok(early(10, { isProgram: false }) < 0.05);
    assert.equal(early(10, { timeouts: 0 }), 0);
  });
});

describe("a slow agent", () => {
  /** In how many seeds agent 1 isn't among the first 60 draws for 12 in a row. */
  const gaps = (rules) => allSeeds.filter((seed) => {
    const board = asking({ seed, agents: 2, ...rules });
    return /0{12}/.test(drawn(board, 60).join(""));
  }).length / SEEDS;

  it("is left out for a while, in more than half of the seeds of a program alone", () => {
    assert.ok(gaps({}) > 0.3, `${gaps({})}`);
    assert.ok(gaps({ isProgram: false }) < 0.03);
    assert.ok(gaps({ isMixed: false }) < 0.03);
  });

  it("moves if no other agent can", () => {
    const board = asking({ agents: 2, seed: 5 });
    board.line.become(0, PHASE.FINISHED);
    assert.deepEqual(new Set(drawn(board, 50)), new Set([1]));
  });
});

describe("late waits and notifies", () => {
  /** A board whose agents ask for a wait, a notify and a store at one place. */
  function meeting({ seed = 1, ...rules } = {}) {
    const board = asking({ seed, ...rules });
    const { READS, WRITES } = FLAG;
    [READS | WAITERS, WAITERS, WRITES].forEach((how, agent) => {
      board.strategy.asks(agent, 400, 404, how);
      board.line.become(agent, PHASE.ASKS);
    });
    return board;
  }
  /** Whether the rule is asked for anything in a run of a seed. */
  function isLate(seed, rules) {
    const board = asking({ seed, ...rules });
    let isAsked = false;
    for (const name of ["asks", "hold", "moves"]) board.strategy.late[name] = () => { isAsked = true; };
    ask(board, 0, 400);
    board.strategy.next();
    return isAsked;
  }
  const lateSeeds = allSeeds.filter((seed) => isLate(seed));

  it("are in one of eight seeds of a program, and the others draw as without the rule", () => {
    assert.ok(Math.abs(lateSeeds.length / SEEDS - 1 / 8) < 0.02, `${lateSeeds.length}`);
    assert.deepEqual(allSeeds.filter((seed) => isLate(seed, { isProgram: false }) || isLate(seed, { isMixed: false })),
      []);
  });

  it("come after what others can do, and a wait comes before a notify and when its place was written", () => {
    let bySeed = lateSeeds.map((seed) => drawn(meeting({ seed }), 1)[0]);
    // Of three, each is held in half of the seeds, and what isn't held is as likely as the others.
    const share = (agent) => bySeed.filter((next) => next === agent).length / bySeed.length;
    assert.ok(share(2) > 0.45, `${share(2)}`);
    bySeed = lateSeeds.map((seed) => {
      const board = meeting({ seed });
      board.line.become(2, PHASE.FINISHED);
      return drawn(board, 1)[0];
    });
    assert.ok(share(0) > 0.5, `${share(0)}`);
  });

  it("aren't held while one thread makes hundreds of calls alone", () => {
    for (const seed of lateSeeds) {
      const board = asking({ seed });
      const reads = () => board.strategy.asks(0, 800, 804, FLAG.READS);
      board.strategy.asks(1, 400, 404, FLAG.READS | WAITERS);
      board.strategy.asks(2, 400, 404, WAITERS);
      reads();
      const alone = drawn(board, 250).findIndex((next) => next !== 0);
      assert.ok(alone >= 0, `seed ${seed}`);
      reads();
    }
  });

  it("find a late notify after many reads in a share of these seeds", async (context) => {
    const fileFor = (name) => readFileSync(new URL(`../programs/bridge/${name}`, import.meta.url), "utf8");
    const files = Object.fromEntries(["bridge.mjs", "worker.mjs"].map((name) => [name, fileFor(name)]));
    const outcomes = await runsOf(context, { "main.mjs": fileFor("timed.mjs"), ...files }, { seeds: lateSeeds });
    const failing = outcomes.filter(({ fails }) => fails);
    assert.ok(failing.length >= 4, `${failing.length} of ${lateSeeds.length}`);
    assert.ok(failing.every(({ detail }) => /woken without an answer/.test(detail)));
  });
});

describe("findings", () => {
  const fileOf = (name) => readFileSync(new URL(`../programs/${name}`, import.meta.url), "utf8");

  it("a late notify behind a timer of 10 ms is found, with what time must pass", async (context) => {
    const names = ["late-answer.mjs", "calls.mjs", "slow-worker.mjs"];
    const files = Object.fromEntries(names.map((name) => [name, fileOf(`calls/${name}`)]));
    const main = 'import "./late-answer.mjs";';
    const seeds = seedsTo(120);
    const failing = (await runsOf(context, { "main.mjs": main, ...files }, { seeds })).filter(({ fails }) => fails);
    assert.ok(failing.length >= 1, "no seed fails");
    for (const { detail, onlyIf } of failing) {
      assert.match(detail, /^agent 0 threw Error: call \d: woken without an answer/);
      assert.match(onlyIf ?? "", /^only if (?:9\.\d+|10) ms pass/);
    }
  });

  it("code that tries again when its time is up ends", async (context) => {
    const seeds = seedsTo(12);
    const main = fileOf("deadline/race-of-promises.mjs");
    const outcomes = await runsOf(context, { "main.mjs": main }, { seeds });
    assert.deepEqual([...new Set(outcomes.map(({ ending, detail }) => ending + detail))], ["finished"]);
  });

  it("an await between look and take is found within ten seeds", async (context) => {
    const names = ["await-between.mjs", "pool.mjs", "worker.mjs"];
    const files = Object.fromEntries(names.map((name) => [name, fileOf(`pool/${name}`)]));
    const seeds = seedsTo(10);
    const outcomes = await runsOf(context, { "main.mjs": 'import "./await-between.mjs";', ...files }, { seeds });
    assert.ok(outcomes.some(({ ending, detail }) => ending === "failed" && /resolve/.test(detail)));
  });
});
