// Timers of whole programs: each scenario runs by node's own timers in a thread of its own, and by those of a run here,
// and has to go alike. The functions `cases` are run by `program-timers.test.mjs`.

import assert from "node:assert/strict";
import { AsyncLocalStorage } from "node:async_hooks";
import { once } from "node:events";
import { isDeepStrictEqual } from "node:util";
import { Worker } from "node:worker_threads";
import { countAnew, leaveContexts } from "../../lib/program/node/internals.mjs";
import { turnLater } from "../../lib/program/real/real-loop.mjs";
import { Timers } from "../../lib/program/loop/timers.mjs";
import { BY_NODE, SCENARIOS, TIMERS } from "./timer-scenarios.mjs";

const own = TIMERS;

/**
 * Settled when the real loop has turned.
 * @returns {Promise<void>}
 */
const realTurn = () => new Promise((done) => void turnLater(done));

/** A thread's loop: timers that are due, a round of immediates, and then the clock goes on to the next deadline. */
class Loop {
  now = 0;
  /** @type {Error[]} */
  thrown = [];
  timers = new Timers({ now: () => this.now });

  /**
   * Microtasks and ticks run behind each callback.
   * @param {() => boolean} act
   * @returns {Promise<boolean>}
   */
  #drained(act) {
    let did = true;
    return new Promise((done) => void turnLater(() => {
      try {
        did = act();
      } catch (error) {
        leaveContexts();
        this.thrown.push(/** @type {Error} */ (error));
      }
      turnLater(() => done(did));
    }));
  }

  async run(allOfThem = false) {
    await realTurn();
    while (this.timers.alive || (allOfThem && (this.timers.deadline < Infinity || this.timers.immediates > 0))) {
      while (await this.#drained(() => this.timers.runTimer()));
      if (this.timers.immediates > 0) {
        await this.#drained(() => this.timers.runImmediate());
        while (this.timers.inRound > 0) await this.#drained(() => this.timers.runImmediate());
      } else if (this.timers.deadline > this.now && this.timers.deadline < Infinity) {
        this.now = this.timers.deadline;
      }
    }
  }
}

/** @type {Worker | undefined} a thread that nothing is replaced in */
let nodeThread;

/**
 * What a scenario logs with node's timers.
 * @param {string} name
 * @param {number} time how many milliseconds it gets
 * @returns {Promise<unknown[]>}
 */
async function loggedByNode(name, time) {
  nodeThread ??= new Worker(new URL("timer-scenarios.mjs", import.meta.url), { execArgv: [], workerData: BY_NODE });
  nodeThread.ref();
  nodeThread.postMessage({ name, time });
  const [logged] = await once(nodeThread, "message");
  nodeThread.unref();
  return logged;
}

/**
 * What it logs with those of a run.
 * @param {string} name
 */
async function loggedHere(name) {
  const loop = new Loop();
  /** @type {unknown[]} */
  const logged = [];
  SCENARIOS[name](TIMERS, (what) => logged.push(what));
  await loop.run(true);
  return logged;
}

/** @type {Record<string, () => unknown>} */
export const cases = {};

for (const name of Object.keys(SCENARIOS)) {
  cases[`as in node: ${name}`] = async () => {
    // Where the machine is late, node's own timers may come in another order. Then they are tried again.
    for (let time = 100; ; time *= 2) {
      const byNode = await loggedByNode(name, time);
      const here = await loggedHere(name);
      if (time < 1_000 && !isDeepStrictEqual(here, byNode)) continue;
      assert.ok(byNode.length > 0, "the scenario logs nothing");
      assert.deepEqual(here, byNode);
      break;
    }
  };
}

cases["the loop gets the earliest deadline, and how many immediates are ready"] = () => {
  const loop = new Loop();
  assert.equal(loop.timers.deadline, Infinity);
  loop.now = 3.7;
  const later = own.setTimeout(() => {}, 20);
  assert.equal(loop.timers.deadline, 23);
  own.setTimeout(() => {}, 30);
  assert.equal(loop.timers.deadline, 23, "a later timer changes nothing");
  const earlier = own.setTimeout(() => {}, 5).unref();
  assert.equal(loop.timers.deadline, 8);
  own.clearTimeout(earlier);
  assert.equal(loop.timers.deadline, 23);
  loop.now = 10;
  later.refresh();
  assert.equal(loop.timers.deadline, 30);
  const immediate = own.setImmediate(() => {});
  assert.equal(loop.timers.immediates, 1);
  own.clearImmediate(immediate);
  assert.equal(loop.timers.immediates, 0);
};

cases["a timer runs when its time is reached and not before, one at a time"] = () => {
  const loop = new Loop();
  /** @type {string[]} */
  const ran = [];
  own.setTimeout(() => ran.push("a"), 5);
  own.setTimeout(() => ran.push("b"), 5);
  assert.equal(loop.timers.runTimer(), false);
  loop.now = 4.9;
  assert.equal(loop.timers.nextTimer(), undefined);
  assert.equal(loop.timers.runTimer(), false);
  loop.now = 5;
  assert.equal(loop.timers.nextTimer()?.text, "a timer of 5 ms");
  assert.equal(loop.timers.runTimer(), true);
  assert.deepEqual(ran, ["a"]);
  assert.equal(loop.timers.runTimer(), true);
  assert.equal(loop.timers.runTimer(), false);
  assert.deepEqual(ran, ["a", "b"]);
  assert.equal(loop.timers.runImmediate(), false);
};

cases["a stuck program names what keeps each thread alive, with its place"] = () => {
  const timers = new Timers({ now: () => 0, here: () => () => "main.mjs:1:2" });
  own.setTimeout(() => {}, 7);
  own.setInterval(() => {}, 3);
  own.setTimeout(() => {}, 1).unref();
  own.setImmediate(() => {});
  own.setImmediate(() => {}).unref();
  const where = "main.mjs:1:2";
  assert.deepEqual(timers.liveHandles(), [
    { text: "an interval of 3 ms", where }, { text: "a timer of 7 ms", where }, { text: "an immediate", where },
  ]);
  assert.equal(timers.alive, true);
  timers.clear();
  const { alive, deadline, immediates } = timers;
  assert.deepEqual([alive, timers.liveHandles(), deadline, immediates], [false, [], Infinity, 0]);
};

cases["nothing keeps a thread alive once its timers have run, were cleared, or are unref'd"] = () => {
  const loop = new Loop();
  const once = own.setTimeout(() => {}, 1);
  loop.now = 1;
  loop.timers.runTimer();
  assert.equal(loop.timers.alive, false);
  once.refresh();
  assert.equal(loop.timers.alive, true, "a refreshed timer counts again");
  own.clearTimeout(once);
  own.clearTimeout(once);
  const unrefed = own.setInterval(() => {}, 1);
  unrefed.unref().unref();
  const immediate = own.setImmediate(() => {});
  immediate.unref().unref();
  assert.equal(loop.timers.alive, false);
  unrefed.ref().ref();
  assert.equal(loop.timers.alive, true);
  unrefed.close();
  immediate.ref();
  assert.equal(loop.timers.alive, true);
  loop.timers.runImmediate();
  assert.equal(loop.timers.alive, false);
};

cases["an immediate that an immediate makes belongs to the next round"] = () => {
  const { timers: run } = new Loop();
  own.setImmediate(() => own.setImmediate(() => {}));
  const second = own.setImmediate(() => {});
  own.setImmediate(() => {});
  assert.deepEqual([run.immediates, run.inRound], [3, 0]);
  run.runImmediate();
  assert.deepEqual([run.immediates, run.inRound], [3, 2]);
  own.clearImmediate(second);
  assert.deepEqual([run.immediates, run.inRound], [2, 1]);
  run.runImmediate();
  assert.deepEqual([run.immediates, run.inRound], [1, 0]);
};

cases["an error of a callback goes to the loop, and the other callbacks run"] = async () => {
  const loop = new Loop();
  /** @type {unknown[]} */
  const ran = [];
  const storage = new AsyncLocalStorage();
  storage.run("store", () => own.setTimeout(() => { throw new Error("of a timer"); }, 1));
  own.setImmediate(() => { throw new Error("of an immediate"); });
  own.setImmediate(() => ran.push("immediate"));
  let times = 0;
  const interval = own.setInterval(() => {
    times += 1;
    if (times === 2) own.clearInterval(interval);
    throw new Error("of an interval");
  }, 1);
  own.setTimeout(() => ran.push(storage.getStore()), 1);
  await loop.run();
  assert.deepEqual(ran, ["immediate", undefined]);
  const expected = ["of an immediate", "of a timer", "of an interval", "of an interval"];
  assert.deepEqual(loop.thrown.map(({ message }) => message), expected);
};

cases["numbers of timers are counted anew in each run"] = () => {
  const { timers: run } = new Loop();
  countAnew();
  const first = [+own.setTimeout(() => {}, 1), +own.setInterval(() => {}, 1)];
  run.clear();
  countAnew();
  assert.deepEqual([+own.setTimeout(() => {}, 1), +own.setInterval(() => {}, 1)], first);
  const timer = own.setTimeout(() => {}, 1);
  own.clearTimeout(timer);
  assert.equal(typeof +timer, "number", "one that has ended has a number, too");
  assert.equal(+timer, +timer);
};

cases["a number of an earlier run clears nothing"] = () => {
  const { timers: run } = new Loop();
  const number = +own.setTimeout(() => {}, 1);
  run.clear();
  own.setTimeout(() => {}, 1);
  own.clearTimeout(number);
  assert.equal(run.alive, true);
};

cases["immediates that are left when one throws don't get into the next run"] = () => {
  const { timers: run } = new Loop();
  /** @type {string[]} */
  const ran = [];
  own.setImmediate(() => { throw new Error("of an immediate"); });
  own.setImmediate(() => ran.push("earlier"));
  assert.throws(() => run.runImmediate(), /of an immediate/);
  leaveContexts();
  run.clear();
  own.setImmediate(() => ran.push("later"));
  while (run.runImmediate());
  assert.deepEqual([ran, run.immediates, run.alive], [["later"], 0, false]);
};

cases["what the recorder does later is no immediate or timer of the run"] = async () => {
  const { timers: run } = new Loop();
  const counts = () => [run.immediates, run.alive, run.deadline];
  const turned = realTurn();
  assert.deepEqual(counts(), [0, false, Infinity]);
  own.setImmediate(() => {});
  assert.deepEqual(counts(), [1, true, Infinity]);
  await turned;
  assert.deepEqual(counts(), [1, true, Infinity], "the real loop runs none of the run's");
  run.clear();
  assert.deepEqual(counts(), [0, false, Infinity]);
};

cases["of timers that are due at the same time, the list of the duration asked for first comes first"] = () => {
  const loop = new Loop();
  /** @type {string[]} */
  const ran = [];
  own.setTimeout(() => ran.push("10 at 0"), 10);
  loop.now = 4;
  own.setTimeout(() => ran.push("6 at 4"), 6);
  loop.now = 10;
  while (loop.timers.runTimer());
  assert.deepEqual(ran, ["10 at 0", "6 at 4"]);
};
