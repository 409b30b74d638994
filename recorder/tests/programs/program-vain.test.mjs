// Programs whose timers go on for ever and do nothing: they are stuck, and the run says who waits where. Timers that do
// something, or before a time that is still to come, aren't in vain.

import assert from "node:assert/strict";
import { describe, it } from "node:test";
import { WORKER, endingsOf, mainWith, runsOf } from "../helpers/whole-programs.mjs";

/** @param {string} main @param {Record<string, string>} [more] @returns {(context: any) => Promise<any>} one run */
const runOf = (main, more = {}) => async (context) => {
  const [outcome] = await runsOf(context, { "main.mjs": main, ...more }, { seeds: [1] });
  return outcome;
};

const MAIN = mainWith(8).trim();
const GETS = WORKER.trim();

describe("timers in vain", () => {
  it("leave the run stuck, with what keeps each thread and which waitAsync isn't settled", async (context) => {
    const outcome = await runOf(`${MAIN}
      setInterval(() => {}, 1000);
      const again = () => setTimeout(again, 30);
      again();
      started();
      await Atomics.waitAsync(words, 1, 0).value;`, { "worker.mjs": `${GETS} Atomics.notify(words, 0);` })(context);
    assert.equal(outcome.ending, "stuck");
    assert.match(outcome.detail,
      /^agent 0 has nothing to do, and is kept alive by .*an interval of 1000 ms from \S*main\.mjs:4:7/);
    assert.match(outcome.detail, /it awaits Atomics\.waitAsync from \S*main\.mjs:8:\d+$/);
    assert.ok(outcome.moves < 10_000, `${outcome.moves} moves`);
  });

  it("are a deadlock if a thread sleeps in Atomics.wait", async (context) => {
    const outcome = await runOf(`${MAIN} started(); setInterval(() => {}, 10);`,
      { "worker.mjs": `${GETS} Atomics.wait(words, 0, 0);` })(context);
    assert.equal(outcome.ending, "deadlock");
    assert.match(outcome.detail, /agent 1 \(worker\.mjs, started at main\.mjs:3:27\) waits at .*worker\.mjs:1:\d+/);
  });

  it("are few among the tasks that are shown", async (context) => {
    const main = "setInterval(() => {}, 10);";
    const [{ tasks = [] }] = await runsOf(context, { "main.mjs": main }, { seeds: [1], options: { trace: true } });
    assert.equal(tasks.filter(({ text }) => /an interval of 10 ms/.test(text)).length, 50);
  });
});

describe("timers that aren't in vain", () => {
  const FINISH = {
    "that count in a variable a thousand times": `let turns = 0;
      const all = setInterval(() => { turns += 1; if (turns === 1000) clearInterval(all); }, 1);`,
    "before a timer that is due much later": `const all = setInterval(() => {}, 1);
      setTimeout(() => { setTimeout(() => clearInterval(all), 4000); }, 3000);`,
    "that start another timer after long": `let turns = 0;
      const end = () => setTimeout(() => clearInterval(all), 500);
      const all = setInterval(() => { turns += 1; if (turns === 1990) end(); }, 1);`,
    "beside a thread that sleeps for long": `${MAIN}
      const all = setInterval(() => {}, 1);
      started().on("exit", () => clearInterval(all));`,
    "that look at the clock": `const end = Date.now() + 5000;
      const all = setInterval(() => { if (Date.now() > end) clearInterval(all); }, 1);`,
    "that print": `let turns = 0;
      const all = setInterval(() => { turns += 1; console.log(turns); if (turns === 3000) clearInterval(all); }, 1);`,
    "that write shared memory": `${MAIN}
      let turns = 0;
      const worker = started();
      const all = setInterval(() => {
        turns += 1;
        words[1] = turns;
        if (turns < 3000) return;
        clearInterval(all);
        worker.postMessage(0);
      }, 1);`,
    "that begin an immediate": `let turns = 0;
      const end = () => { if (turns === 3000) clearInterval(all); };
      const all = setInterval(() => { turns += 1; setImmediate(end); }, 1);`,
  };
  const workers = {
    "beside a thread that sleeps for long": `${GETS} Atomics.wait(words, 0, 0, 5000);`,
    "that write shared memory": `${GETS} parentPort.once("message", () => {
        if (words[1] !== 3000) throw new Error("less");
      });`,
  };
  for (const [name, main] of Object.entries(FINISH)) {
    it(`${name} go on`, async (context) => {
      const outcome = await runOf(main, { "worker.mjs": workers[name] ?? "" })(context);
      assert.deepEqual(endingsOf([outcome]), ["finished: "]);
    });
  }
});
