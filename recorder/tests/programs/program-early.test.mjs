// Times of programs that end early: by how much the run's clock may be ahead of what waits, that such times don't add
// up, and that each run that fails after one says which time passed.

import assert from "node:assert/strict";
import { describe, it } from "node:test";
import { Board } from "../../lib/board/board.mjs";
import { LOOP, PHASE } from "../../lib/memory/layout.mjs";
import { emptyMemory } from "../helpers/boards.mjs";
import { seedsTo } from "../helpers/recorded.mjs";
import { startedBoard } from "../helpers/started-boards.mjs";
import { endingsOf, finishing, runsOf } from "../helpers/whole-programs.mjs";

/** A program's board: agent 0 waits for a time, agent 1 asks for a call, agent 2 sleeps. */
function boardOf({ early = 100, milliseconds = 50, memory = emptyMemory() } = {}) {
  const board = startedBoard(3, { starts: 3, early, memory });
  board.rest(0, LOOP, milliseconds);
  board.strategy.asks(1, 0, 0, 0);
  board.line.become(1, PHASE.ASKS);
  board.wait(2, 1, 0, undefined);
  return board;
}

describe("a time that may end early", () => {
  const mayEnd = (board) => board.deadlines.mayEndEarly(0);

  it("is at most the bound after what could have moved", () => {
    assert.deepEqual([50, 100, 101].map((milliseconds) => mayEnd(boardOf({ milliseconds }))), [true, true, false]);
    assert.deepEqual([0, 49, 50].map((early) => mayEnd(boardOf({ early }))), [false, false, true]);
  });

  it("is at most the bound after the time of another, and doesn't depend on one that sleeps", () => {
    const board = boardOf({ milliseconds: 500 });
    board.rest(1, LOOP, 399);
    assert.equal(mayEnd(board), false);
    board.rest(1, LOOP, 400);
    assert.equal(mayEnd(board), true);
    board.wait(1, 1, 0, undefined);
    assert.equal(mayEnd(board), true);
  });

  it("counts from when the clock went on: what passed early is left out of the next time", () => {
    const board = boardOf({ milliseconds: 60 });
    board.deadlines.end(0, 60);
    board.rest(0, LOOP, 60);
    assert.equal(mayEnd(board), false);
    board.rest(0, LOOP, 40);
    assert.equal(mayEnd(board), true);
  });

  it("counts for one that is woken from when the one could have moved that wakes it", () => {
    const board = boardOf({ milliseconds: 60 });
    board.deadlines.end(0, 60);
    // Agent 1, which lags, wakes agent 2 and sleeps.
    board.strategy.moves(1, 1);
    board.line.notify(1, 0, 1);
    board.wait(1, 1, 0, undefined);
    board.rest(0, LOOP, 60);
    assert.equal(mayEnd(board), false);
  });

  it("counts for one whose own time is up from when its wait began", () => {
    const board = boardOf({ milliseconds: 60 });
    board.deadlines.end(0, 60);
    // Agent 1, which lags, waits for a time, which is up.
    board.rest(1, LOOP, 1);
    board.rest(0, LOOP, 60);
    board.deadlines.end(1, 1);
    board.line.become(1, PHASE.ASKS);
    assert.equal(mayEnd(board), false);
  });

  it("counts for an event loop with timers as it was, if one wakes it that lags less", () => {
    const board = boardOf({ milliseconds: 60 });
    board.deadlines.end(0, 60);
    board.rest(1, LOOP, 30);
    board.strategy.moves(0, 0);
    board.line.notify(LOOP, 1, 1);
    board.rest(0, LOOP, 60);
    assert.equal(mayEnd(board), false);
  });

  it("counts what passes early while one waits whose time is up", () => {
    const board = boardOf({ milliseconds: 60 });
    board.rest(1, LOOP, 10);
    board.deadlines.end(0, 60);
    board.deadlines.end(1, 10);
    board.line.become(1, PHASE.ASKS);
    board.rest(0, LOOP, 60);
    assert.equal(mayEnd(board), false);
    board.rest(0, LOOP, 50);
    assert.equal(mayEnd(board), true);
  });

  it("ends by a row only so, unless the row is exact", () => {
    const drawn = (isExact, milliseconds) => {
      const board = boardOf({ milliseconds, memory: Board.memory() });
      board.row.begin({ row: [0], isExact, wantsRow: false });
      return board.row.next();
    };
    assert.deepEqual([drawn(false, 50), drawn(false, 500), drawn(true, 500)], [0, 1, 0]);
  });
});

/** Main asks, and has a limit for the answer; the question goes through two threads, and a clock ticks beside. */
const chain = (limit) => ({
  "main.mjs": `import { Worker } from "node:worker_threads";
    const worker = new Worker(new URL("./w.mjs", import.meta.url));
    const ticks = setInterval(() => {}, 10);
    const late = setTimeout(() => { throw new Error("no answer in time"); }, ${limit});
    let left = 8;
    worker.on("message", () => {
      left -= 1;
      if (left > 0) return worker.postMessage(left);
      clearTimeout(late);
      clearInterval(ticks);
      worker.unref();
    });
    worker.postMessage(left);`,
  "w.mjs": `import { parentPort } from "node:worker_threads";
    parentPort.on("message", (left) => parentPort.postMessage(left));`,
});

/**
 * Main has a limit for an answer, and a clock ticks beside; the worker reports each of its steps, between which it
 * sleeps.
 */
const STEPS = {
  "main.mjs": `import { Worker } from "node:worker_threads";
    const worker = new Worker(new URL("./w.mjs", import.meta.url));
    const ticks = setInterval(() => {}, 90);
    const late = setTimeout(() => { throw new Error("no answer in time"); }, 500);
    worker.on("message", (step) => {
      if (step < 20) return;
      clearTimeout(late);
      clearInterval(ticks);
      worker.unref();
    });
    worker.postMessage("begin");`,
  "w.mjs": `import { setTimeout as sleep } from "node:timers/promises";
    import { parentPort } from "node:worker_threads";
    parentPort.once("message", async () => {
      for (let step = 1; step <= 20; step += 1) {
        await sleep(1);
        parentPort.postMessage(step);
      }
    });`,
};

describe("programs with limits of time", () => {
  it("aren't late by early ends before each of a thread's short sleeps", async (context) => {
    await finishing(context, STEPS, { seeds: seedsTo(40) });
  });

  it("aren't late by many early ends, each a short time", async (context) => {
    await finishing(context, chain(200), { seeds: seedsTo(60) });
  });

  it("are late within the bound, and each such run says which time passed", async (context) => {
    const outcomes = await runsOf(context, chain(50), { seeds: seedsTo(60) });
    const failing = outcomes.filter(({ fails }) => fails);
    assert.ok(failing.length > 5, `${failing.length}`);
    for (const { seed, onlyIf } of failing) {
      assert.match(onlyIf ?? `seed ${seed} isn't marked`,
        /^only if [\d.]+ ms pass before agent \d('s next (call|task)| goes on)/);
    }
    // A task of the loop itself waits when its timer is early.
    assert.ok(failing.some(({ onlyIf }) => /agent 0's next task/.test(onlyIf ?? "")));
  });

  it("have no early ends by `early` 0, and longer ones by another bound", async (context) => {
    const none = await runsOf(context, chain(50), { seeds: seedsTo(40), options: { early: 0 } });
    assert.deepEqual(endingsOf(none), ["finished: "]);
    const long = await runsOf(context, chain(200), { seeds: seedsTo(40), options: { early: 1_000 } });
    assert.ok(long.some(({ fails, onlyIf }) => fails && onlyIf !== undefined));
  });
});
