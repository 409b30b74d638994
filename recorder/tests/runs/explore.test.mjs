// Many runs of the library: that they are those of `record`, how they are handed out, and that nothing of them is left.

import assert from "node:assert/strict";
import { spawn } from "node:child_process";
import { randomUUID } from "node:crypto";
import { once } from "node:events";
import { test } from "node:test";
import { setTimeout as sleep } from "node:timers/promises";
import { Delivery } from "../../lib/seeds/delivery.mjs";
import { Difference, LostJob, NoSabsim, Refused, explore, record } from "../../recorder.mjs";
import {
  LIES, agentsIn, agentsPath, fileIn, processesWith, refusedInALine, shellProgram, soon, stayingWith,
  temporaryFolder,
} from "../helpers/common.mjs";
import { CHECKER, NOWHERE, onLinux, withShell } from "../helpers/needs.mjs";
import { endOf } from "../helpers/programs.mjs";

const LIBRARY = new URL("../../recorder.mjs", import.meta.url).href;
/** Drawn for before each call, so that there are no pilots, which call `init` too. */
const everywhere = true;
// How many agents there are is given, so that no more workers begin.
const naive = { module: agentsPath("naive-mutex"), agents: 3, sabsim: false, strategy: "uniform", everywhere };
const cases = (name) => ({
  module: agentsPath("cases"), agents: 2, buffers: [12], args: [name], sabsim: false, everywhere,
});

/** All outcomes. @param {AsyncIterable<any>} runs */
async function allOf(runs) {
  const all = [];
  for await (const run of runs) all.push(run);
  return all;
}

/** The outcomes of some seeds, by one job, of which sabsim checks one in four. Two tests look at them. */
const oneInFour = allOf(explore({ ...naive, sabsim: CHECKER, seeds: "20..60", checkEvery: 4 }));
oneInFour.catch(() => {});

test("outcomes come in the order of the seeds, and are those of record, whatever the jobs", async () => {
  const options = { ...naive, sabsim: CHECKER };
  const one = await oneInFour;
  assert.deepEqual(one.map(({ seed }) => seed), Array.from({ length: 41 }, (_, at) => at + 20));
  const three = await allOf(explore({ ...options, seeds: { first: 20, last: 60 }, checkEvery: 4, jobs: 3 }));
  // Each job returns the trace of its own first failing run, and the code that it names.
  const untraced = (outcomes) => outcomes.map((outcome) => ({ ...outcome, trace: undefined, sources: undefined }));
  assert.deepEqual(untraced(three), untraced(one));
  const first = one.find(({ fails }) => fails);
  assert.equal(first.seed, 29);
  assert.notEqual(first.trace, undefined);
  assert.deepEqual(first, await record({ ...options, seed: 29 }));
});

test("each outcome says whether sabsim has checked it: those that fail, and one in so many", async () => {
  const outcomes = await oneInFour;
  assert.equal(outcomes.length, 41);
  for (const outcome of outcomes) {
    const { seed, fails, checked, unchecked, script } = outcome;
    assert.equal(checked, fails || (seed - 20) % 4 === 0);
    assert.equal(unchecked, checked ? undefined : "one in 4 of the runs that don't fail is checked");
    assert.equal(script !== undefined, checked);
  }
});

test("which seeds are meant", async () => {
  const seedsOf = async (seeds) => {
    const outcomes = await allOf(explore({ ...cases("addition"), agents: 1, seeds }));
    return outcomes.map(({ seed }) => seed);
  };
  assert.deepEqual(await seedsOf(3), [1, 2, 3]);
  assert.deepEqual(await seedsOf("8"), [8]);
  assert.deepEqual(await seedsOf("0..1"), [0, 1]);
  assert.equal((await seedsOf(undefined)).length, 100);
});

test("options that can't be are refused at once, and a module that can't be when a run is asked for", async () => {
  const module = agentsPath("cases");
  const wrong = {
    seeds: ["", "5..1", "a..b", "1..2..3", 0, -1, 1.5, 2 ** 53, null, {}, { first: 2, last: 1 }, { first: 1 }, [1, 2]],
    jobs: [0, 65, 1.5, "2", null], checkEvery: [-1, "1", null], failFast: ["yes"], fresh: [1], signal: [{}, null],
  };
  for (const [name, values] of Object.entries(wrong)) {
    for (const value of values) {
      const why = refusedInALine(new RegExp(`^\`${name}\` must be `), `${name}: ${String(value)}`);
      assert.throws(() => explore({ module, [name]: value }), why);
    }
  }
  assert.throws(() => explore({ module, seed: 1 }), /^Error: there is no option `seed`: is seeds meant\?$/);
  assert.throws(() => explore(), /^Error: the options must be an object$/);
  assert.throws(() => explore({ module: "./none.mjs" }), /^Error: there is no file .*runs.none\.mjs: /);
  for (const name of ["init", "check"]) {
    const why = new RegExp(`^Error: \`${name}\` can't be given: it is a function of this process, and 2 jobs have `);
    assert.throws(() => explore({ module, jobs: 2, [name]: () => {} }), why);
  }
  assert.throws(() => explore({ module, sabsim: NOWHERE }), NoSabsim);
  for (const jobs of [1, 2]) await assert.rejects(allOf(explore({ module, jobs, agents: 1, sabsim: false })), Refused);
});

test("a relative path is taken from the file that calls it", async () => {
  const [{ ending }] = await allOf(explore({ ...cases("addition"), module: "../agents/cases.mjs", seeds: 1 }));
  assert.equal(ending, "finished");
});

test("the functions init and check are called here, for each run", async () => {
  const seen = [];
  let runs = 0;
  const init = ([buffer]) => void new Int32Array(buffer).fill(runs += 1, 2, 3);
  const check = ([buffer]) => {
    seen.push(new Int32Array(buffer)[2]);
    return seen.length < 4;
  };
  const outcomes = await allOf(explore({ ...cases("addition"), init, check, seeds: 4, failFast: true }));
  // What fails is run once more for its trace, and the first seed's run once more at the end.
  assert.deepEqual(seen, [1, 2, 3, 4, 5, 6]);
  assert.deepEqual(outcomes.map(({ ending }) => ending), ["finished", "finished", "finished", "check"]);
});

test("with failFast the first failing run is the last, and with fresh workers aren't kept", async (context) => {
  for (const jobs of [1, 3]) {
    const outcomes = await allOf(explore({ ...naive, seeds: "10..100000", failFast: true, jobs }));
    assert.deepEqual([outcomes.length, outcomes.at(-1).seed, outcomes.at(-1).fails], [20, 29, true]);
  }
  const module = agentsIn(temporaryFolder(context), `
    globalThis.runs = (globalThis.runs ?? 0) + 1;
    Atomics.store(new Uint8Array(buffers[0]), 0, globalThis.runs);
  `);
  const remembered = async (fresh) => {
    const outcomes = await allOf(explore({ module, agents: 1, buffers: [1], sabsim: false, seeds: 3, fresh }));
    return outcomes.map(({ state }) => state.shown[0]);
  };
  assert.deepEqual([await remembered(false), await remembered(true)], [["01", "02", "03"], ["01", "01", "01"]]);
});

test("runs aren't made far ahead of the loop that takes them", async () => {
  let made = 0;
  const runs = explore({ ...cases("addition"), seeds: 100_000, init: () => void (made += 1) });
  try {
    await runs.next();
    // On a busy machine no run may be made for a while.
    for (let looks = 0, before = -1; looks < 100 && (made < 16 || made !== before); looks += 1) {
      before = made;
      await sleep(300);
    }
    assert.ok(made >= 16 && made <= 32, `${made} were made`);
    for (let seed = 2; seed <= 50; seed += 1) assert.equal((await runs.next()).value.seed, seed);
  } finally {
    await runs.return();
  }
  const after = made;
  await sleep(100);
  assert.equal(made, after);
  assert.deepEqual(await runs.next(), { done: true, value: undefined });
});

test("a signal ends it with its reason, before it begins and amid the runs", async () => {
  const before = AbortSignal.abort(new Error("never begin"));
  await assert.rejects(allOf(explore({ ...naive, signal: before })), /^Error: never begin$/);
  for (const jobs of [1, 2]) {
    const controller = new AbortController();
    let seen = 0;
    const taking = async () => {
      for await (const { seed } of explore({ ...naive, seeds: 1_000_000, jobs, signal: controller.signal })) {
        seen = seed;
        if (seed === 40) controller.abort(new Error("enough"));
      }
    };
    await assert.rejects(taking, /^Error: enough$/);
    assert.equal(seen, 40);
  }
});

test("a difference ends it, and so does a job's process that ends", withShell, async (context) => {
  const folder = temporaryFolder(context);
  const lying = shellProgram(folder, LIES);
  for (const jobs of [1, 2]) {
    const runs = explore({ ...cases("addition"), sabsim: lying, seeds: "5..100000", checkEvery: 50, jobs });
    await assert.rejects(allOf(runs), (error) => error instanceof Difference && error.outcome.seed % 50 === 5);
  }
  const module = agentsIn(folder, `
    globalThis.runs = (globalThis.runs ?? 0) + 1;
    Atomics.add(new Int32Array(buffers[0]), 0, 1);
    if (globalThis.runs === 3) process.kill(process.pid, "SIGKILL");
  `);
  const runs = explore({ module, agents: 1, buffers: [4], sabsim: false, seeds: 100_000, jobs: 2 });
  const message = /^a job's process ended by itself \(SIGKILL\), and nothing is known of /;
  await assert.rejects(allOf(runs), { constructor: LostJob, message });
});

/**
 * Agents of some jobs. A job in the same process begins all workers that there can be; it takes few to see whether the
 * processes of several end.
 * @param {number} jobs
 */
const ofJobs = (jobs) => {
  const options = { module: agentsPath("naive-mutex"), sabsim: CHECKER, jobs };
  return jobs === 1 ? options : { ...options, agents: 3, everywhere };
};

const WAYS_OUT = {
  "a break": "for await (const { seed } of runs) if (seed === 20) break;",
  "a throw": 'try { for await (const { seed } of runs) if (seed === 20) throw new Error("mine"); } catch (error) ' +
    '{ if (error.message !== "mine") throw error; }',
  "its own end": "for await (const { fails } of runs);",
};

/**
 * Runs code that has `explore` in processes of their own, with the options of one job and of two.
 * @param {import("node:test").TestContext} context
 * @param {(options: object) => string} codeOf
 * @param {object} how the processes are started
 * @param {(child: import("node:child_process").ChildProcess, mark: string) => Promise<void>} look at each; the mark is
 *   in its environment
 */
async function inProcesses(context, codeOf, how, look) {
  const folder = temporaryFolder(context);
  await Promise.all([1, 2].map((jobs) => {
    const mark = randomUUID();
    const file = fileIn(folder, `${jobs}.mjs`, `import { explore } from "${LIBRARY}";\n${codeOf(ofJobs(jobs))}`);
    return look(spawn(process.execPath, [file], { env: { ...process.env, RECORDER_TEST: mark }, ...how }), mark);
  }));
}

for (const [what, code] of Object.entries(WAYS_OUT)) {
  test(`${what} leaves no worker and no process behind`, onLinux, async (context) => {
    const codeOf = (options) => `
      const runs = explore(${JSON.stringify({ ...options, checkEvery: 1, seeds: 40 })});
      ${code}
      process.send("over");
      await new Promise((done) => process.once("disconnect", done));
    `;
    await inProcesses(context, codeOf, { stdio: ["ignore", "inherit", "inherit", "ipc"] }, async (child, mark) => {
      const ended = once(child, "exit").then(([status]) => status);
      // It goes on until it has no parent to speak to.
      await Promise.race([once(child, "message"), ended]);
      assert.ok(await soon(() => processesWith(mark).every((id) => Number(id) === child.pid)));
      if (child.connected) child.disconnect();
      // It ends by itself: no worker holds it.
      assert.deepEqual([await ended, processesWith(mark)], [0, []]);
    });
  });
}

test("a signal that is aborted while no outcome is taken ends all the same", onLinux, async (context) => {
  const codeOf = (options) => `
    const controller = new AbortController();
    const options = ${JSON.stringify({ ...options, seeds: 1_000_000 })};
    await explore({ ...options, signal: controller.signal }).next();
    controller.abort();
  `;
  await inProcesses(context, codeOf, { timeout: 600_000 }, async (child, mark) => {
    // It ends by itself, though nobody has asked the iterator for more.
    const { status } = await endOf(child);
    assert.deepEqual([status, await stayingWith(mark)], [0, []]);
  });
});

test("a delivery hands out in order, and says how far runs may go", async () => {
  const delivery = new Delivery(5);
  assert.equal(delivery.next, 5);
  const first = delivery.take();
  delivery.add({ seed: 6 });
  let isTaken = false;
  first.then(() => (isTaken = true));
  await sleep(1);
  assert.equal(isTaken, false);
  const next = delivery.taking.next();
  delivery.add({ seed: 5, checked: true });
  assert.deepEqual(await first, { seed: 5, checked: true });
  await next;
  assert.equal(delivery.next, 6);
  assert.equal((await delivery.take()).seed, 6);
  delivery.add({ seed: 7 });
  assert.equal((await delivery.take()).seed, 7);
  delivery.finish();
  assert.equal(await delivery.take(), undefined);
  delivery.fail(new Error("too late"));
  delivery.fail(new Error("later"));
  await assert.rejects(delivery.take(), /^Error: too late$/);
});
