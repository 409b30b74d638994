// Who moves next: how each strategy draws, where it draws at all, and what pilots show of places.

import assert from "node:assert/strict";
import { readFileSync } from "node:fs";
import { test } from "node:test";
import { Board } from "../../lib/board/board.mjs";
import { STRATEGIES } from "../../lib/board/strategy/strategies.mjs";
import { waysOf } from "../../lib/board/strategy/ways.mjs";
import { KnownPlaces, placeNumber } from "../../lib/memory/known-places.mjs";
import { PHASE } from "../../lib/memory/layout.mjs";
import { FLAG } from "../../lib/memory/log.mjs";
import { OPTIONS } from "../../lib/options/table.mjs";
import { Pilots } from "../../lib/run/pilots/pilots.mjs";
import { emptyMemory } from "../helpers/boards.mjs";
import { logOf } from "../helpers/logs.mjs";

const { READS, WRITES, WAITERS } = FLAG;

/** A call of four bytes. @param {number} word @param {number} how */
const call = (word, how) => ({ from: word * 4, to: word * 4 + 4, how });

/**
 * A board all of whose agents ask for a call.
 * @param {string} strategy
 * @param {{ from: number, to: number, how: number }[]} calls of each agent
 * @param {{ seed?: number, everywhere?: boolean, timeouts?: number, know?: (places: KnownPlaces) => void }} [options]
 */
function asking(strategy, calls, { seed = 1, everywhere = false, timeouts = 0.05, know } = {}) {
  const ways = waysOf(strategy, everywhere);
  const memory = know === undefined ? emptyMemory() : Board.memory();
  const board = new Board(memory, { agents: calls.length, ways, maxMoves: 100_000, timeouts });
  know?.(board.places);
  board.begin(seed);
  for (let agent = 1; agent < calls.length; agent += 1) board.pass(agent - 1);
  calls.forEach(({ from, to, how }, agent) => ask(board, agent, from, to, how));
  return board;
}

function ask(board, agent, from, to, how) {
  board.strategy.asks(agent, from, to, how);
  board.line.become(agent, PHASE.ASKS);
}

/** Who moves in each of some draws, where each asks for the same call again. */
function row(board, calls, draws) {
  return Array.from({ length: draws }, () => {
    const agent = board.strategy.next();
    const { from, to, how } = calls[agent];
    ask(board, agent, from, to, how);
    return agent;
  });
}

/** In how many of many seeds a property holds. */
function share(holds, seeds = 4_000) {
  let count = 0;
  for (let seed = 0; seed < seeds; seed += 1) count += holds(seed) ? 1 : 0;
  return count / seeds;
}

const near = (found, expected) => assert.ok(Math.abs(found - expected) < 0.03, `${found}, and not ${expected}`);

test("by partial-order sampling each of three moves in conflict is first in a third of the seeds", () => {
  const calls = [call(0, WRITES), call(0, READS), call(0, READS | WRITES)];
  for (const agent of [0, 1, 2]) {
    near(share((seed) => asking("partial-order", calls, { seed }).strategy.next() === agent), 1 / 3);
  }
});

test("a move that waits for its turn keeps its priority, unless what is made conflicts with it", () => {
  // Of three moves by agent 0 the one of agent 1 comes last in a quarter of the seeds: its priority is the least of
  // four. Where they conflict each draw is one of two, so that it is an eighth.
  const last = (other) => share((seed) => {
    const calls = [call(0, WRITES), other];
    return row(asking("partial-order", calls, { seed }), calls, 3).every((agent) => agent === 0);
  });
  near(last(call(1, WRITES)), 1 / 4);
  near(last(call(0, READS)), 1 / 8);
  // Two reads don't conflict, nor does a notify with what reads the word.
  near(share((seed) => {
    const calls = [call(0, READS), call(0, READS)];
    return row(asking("partial-order", calls, { seed }), calls, 3).every((agent) => agent === 0);
  }), 1 / 4);
  near(share((seed) => {
    const calls = [call(0, WAITERS), call(0, READS | WAITERS)];
    return row(asking("partial-order", calls, { seed }), calls, 3).every((agent) => agent === 0);
  }), 1 / 8);
});

test("by partial-order sampling an agent that reads again and again lets the others move in time", () => {
  const calls = [call(0, READS), call(1, WRITES), call(0, READS)];
  for (let seed = 0; seed < 200; seed += 1) {
    const turns = row(asking("partial-order", calls, { seed }), calls, 900);
    assert.ok(turns.includes(1), `seed ${seed}: the one that writes never moves`);
  }
});

test("by partial-order sampling the end of a time is as likely each time that it is offered", () => {
  const calls = [call(0, READS), call(1, READS | WAITERS)];
  // The draws up to the end of the time: where it is offered in each it takes two as a rule, since it is one of two.
  let draws = 0;
  for (let seed = 0; seed < 500; seed += 1) {
    const board = asking("partial-order", calls, { seed, timeouts: 1 });
    board.line.join(1, 0, 4, true);
    for (let agent = 0; agent === 0 && draws < 2_000; draws += 1) {
      agent = board.strategy.next();
      ask(board, 0, calls[0].from, calls[0].to, calls[0].how);
    }
  }
  assert.ok(draws > 850 && draws < 1_150, `${draws} draws`);
});

test("a call that is the agent's own affair is made without a draw, and a wait or a notify never is", () => {
  const know = (places) => {
    for (let place = 0; place < 4; place += 1) places.giveTo(place, 0);
    for (let place = 4; place < 8; place += 1) places.setReadAlone(place);
    for (let place = 8; place < 12; place += 1) places.share(place);
  };
  /** Whether agent 0 makes ten such calls in a row, whatever the seed is. */
  const goesOn = (word, how, options = {}) => {
    const calls = [call(word, how), call(word, how)];
    return share((seed) => {
      const board = asking("uniform", calls, { seed, know, ...options });
      return row(board, calls, 10).every((agent) => agent === 0);
    }, 50) === 1;
  };
  assert.equal(goesOn(0, WRITES), true);
  assert.equal(goesOn(1, READS), true);
  assert.equal(goesOn(0, WRITES, { everywhere: true }), false);
  assert.equal(goesOn(1, READS | WRITES), false, "nobody wrote there before");
  assert.equal(goesOn(2, READS), false, "it is shared");
  assert.equal(goesOn(3, READS), false, "nothing is known of it");
  assert.equal(goesOn(0, WAITERS), false);
  assert.equal(goesOn(0, READS | WAITERS), false);
});

test("by switch:P another agent moves next with that likelihood, and by uniform each agent is as likely", () => {
  const calls = [call(0, WRITES), call(0, WRITES), call(0, WRITES)];
  /** How often the second agent that moves is the first one itself, the next one, and the one behind that. */
  const steps = (strategy) => [0, 1, 2].map((step) => share((seed) => {
    const [first, second] = row(asking(strategy, calls, { seed }), calls, 2);
    return (first + step) % 3 === second;
  }));
  const expected = { "switch:0.2": [0.8, 0.1, 0.1], "switch:0.9": [0.1, 0.45, 0.45], uniform: [1 / 3, 1 / 3, 1 / 3] };
  for (const [strategy, shares] of Object.entries(expected)) {
    steps(strategy).forEach((found, step) => near(found, shares[step]));
  }
});

test("the end of a time is offered in as many draws as `timeouts` says, while something else can move", () => {
  const calls = [call(0, READS), call(1, READS | WAITERS)];
  const offered = (timeouts) => share((seed) => {
    const board = asking("uniform", calls, { seed, timeouts });
    board.line.join(1, 0, 4, true);
    return board.strategy.next() === 1;
  });
  // Where it is offered it is one of two.
  for (const timeouts of [0, 0.2, 1]) near(offered(timeouts), timeouts / 2);
});

test("an agent that makes private calls without an end lets the others move in the end", () => {
  const know = (places) => {
    for (let place = 0; place < 4; place += 1) places.giveTo(place, 0);
  };
  const calls = [call(0, READS), call(1, WRITES)];
  const turns = row(asking("uniform", calls, { know }), calls, 200);
  const first = turns.indexOf(1, 1);
  assert.ok(first > 100 && first < 150, `agent 1 moves at ${first}`);
  assert.ok(turns.slice(first).filter((agent) => agent === 1).length > 10);
});

test("each row of the table is a strategy by its word, and draws among the agents that can move", () => {
  for (const [name, { hasLikelihood }] of Object.entries(STRATEGIES)) {
    const [word, wrong] = hasLikelihood ? [`${name}:0.4`, name] : [name, `${name}:0.4`];
    assert.deepEqual(waysOf(wrong, false), [], wrong);
    const calls = [0, 1, 2].map(() => call(0, WRITES));
    assert.deepEqual(new Set(row(asking(word, calls, { everywhere: true }), calls, 400)), new Set([0, 1, 2]), word);
  }
  for (const word of ["", "switch:", "switch:1.1", "switch:-1", "switch:.5", "toString", "mixed:1", "uniform "]) {
    assert.deepEqual(waysOf(word, false), [], word);
  }
});

test("each row of the table is named in the help, in the reference and in the declared types", () => {
  const [reference, types] = ["../docs/RECORDER.md", "options.d.cts"].map((name) =>
    readFileSync(new URL(`../../${name}`, import.meta.url), "utf8"));
  for (const [name, { hasLikelihood }] of Object.entries(STRATEGIES)) {
    const word = hasLikelihood ? `${name}:P` : name;
    assert.ok(OPTIONS.strategy.help[1].includes(word), word);
    assert.ok(reference.includes(`\n| \`${word}\` |`), word);
    assert.ok(types.includes(hasLikelihood ? `\`${name}:\${number}\`` : `"${name}"`), word);
  }
});

test("the seed decides by which strategy a mixed run is drawn, and each strategy has its share", () => {
  const ways = waysOf("mixed", false);
  const names = ways.map(({ name }) => name);
  for (const name of ["partial-order", "switch"]) assert.ok(names.includes(name), name);
  assert.equal(ways.filter(({ everywhere }) => everywhere).length, 1);
  assert.ok(waysOf("mixed", true).every(({ everywhere }) => everywhere));
  const board = new Board(Board.memory(), { agents: 1, ways, maxMoves: 100_000, timeouts: 0.05 });
  const most = Number.MAX_SAFE_INTEGER;
  for (const seed of [0, 1, ways.length, ways.length + 5, most]) {
    board.begin(seed);
    assert.equal(board.strategy.ways[seed % ways.length].everywhere, ways[seed % ways.length].everywhere);
    assert.doesNotThrow(() => board.strategy.asks(0, 0, 4, READS));
  }
});

/** A log of events by words: agent, what is done, the word, and whether it is ordinary. */
function logByWords(events) {
  return logOf(events.map(([agent, does, word, isOrdinary = false]) => ({
    agent, block: 0, byte: word * 4, size: 4, read: does === "read", write: does === "write",
    atomic: !isOrdinary && does !== "notify", waiters: does === "notify", source: 0,
  })));
}

/** What is known of the calls of agents after some pilots: whether each is the agent's own affair. */
function known(pilots, calls) {
  const places = new KnownPlaces(KnownPlaces.memory());
  const learnt = new Pilots(3, places);
  for (const events of pilots) learnt.add(logByWords(events));
  learnt.teach();
  return calls.map(([agent, does, word]) =>
    places.isPrivate(agent, placeNumber(0, word * 4), placeNumber(0, word * 4) + 4, does === "write"));
}

test("pilots show which places several agents use, one of them to write", () => {
  const first = [[0, "write", 0], [0, "read", 0], [1, "read", 1], [2, "read", 1], [0, "write", 2], [1, "read", 2]];
  const calls = [[0, "write", 0], [1, "read", 0], [1, "read", 1], [1, "write", 1], [0, "write", 2], [0, "write", 3]];
  assert.deepEqual(known([first], calls), [true, false, true, false, false, false]);
  // What one pilot hasn't shown another one may.
  assert.deepEqual(known([first, [[1, "read", 0]]], calls.slice(0, 1)), [false]);
  assert.deepEqual(known([[[0, "notify", 4]]], [[0, "write", 4]]), [false]);
});

test("a call beside an ordinary access to a shared place is one to draw at, before and behind it", () => {
  const own = [0, 1, 2, 3].map((word) => [0, "write", word]);
  const pilot = [own[0], own[1], [0, "read", 9, true], own[2], own[3], [1, "write", 9, true]];
  assert.deepEqual(known([pilot], own), [true, false, false, true]);
  const alone = pilot.slice(0, -1);
  assert.deepEqual(known([alone], own), [true, true, true, true]);
});

test("calls that threw show nothing of places, whatever their index was", () => {
  const log = logOf([
    { agent: 0, block: 0, byte: -400, size: 4, read: false, write: false, atomic: true, waiters: false, source: 0 },
    { agent: 0, block: 0, byte: 0, size: 4, read: true, write: false, atomic: true, waiters: false, source: 0 },
  ]);
  log.events[0] &= 0xffff;
  const pilots = new Pilots(1, new KnownPlaces(KnownPlaces.memory()));
  pilots.add(log);
  assert.deepEqual([...pilots.users.slice(0, 5)], [1, 1, 1, 1, 0]);
});
