// Each example is recorded under 200 seeds: the wrong ones are found, no other run fails, and what is found is what the
// examples' README says. The engine's own waits and notifies agree with some of the scripts of each. The simulator
// checks every run.

import assert from "node:assert/strict";
import { readFileSync, readdirSync } from "node:fs";
import { join } from "node:path";
import { after, describe, test } from "node:test";
import { pathToFileURL } from "node:url";
import { Job } from "../../lib/seeds/job.mjs";
import { Runs, outcomesOf as taken } from "../../lib/seeds/runs.mjs";
import { fileIn, temporaryFolder } from "../helpers/common.mjs";
import { CHECKER } from "../helpers/needs.mjs";
import { AskedProcesses } from "../helpers/asked-processes.mjs";
import { pathOf } from "../helpers/programs.mjs";
import { whereNodeHasIt } from "../helpers/where-node-has-it.mjs";

const FOLDER = pathOf("recorder/examples");
const SEEDS = 200;
const BY_THE_ENGINE = 10;

// About ten scripts of each example: for so few further processes aren't worth their start.
const opinions = new AskedProcesses("recorder/tests/helpers/opinion-process.mjs", 1);
after(() => opinions.end());

/**
 * The outcomes of a module of agents under the seeds from 1 on, in the order of the seeds.
 * @param {string} module its path
 * @param {number} last
 * @param {number} checkEvery
 * @param {object} [more] options
 */
async function outcomesOf(module, last, checkEvery, more = {}) {
  const outcomes = [];
  const fixed = { args: [], jobs: 1, maxMoves: 100_000, seconds: 10, fresh: false, sabsim: CHECKER };
  const options = { ...fixed, module: pathToFileURL(module).href, first: 1, last, checkEvery, ...more };
  for await (const outcome of taken(new Runs(options, { job: new Job() }))) outcomes.push(outcome);
  assert.equal(outcomes.filter(({ checked }) => checked).length, checkEvery * last);
  return outcomes;
}

/** How many waits ended by their time. */
function timeOuts(outcomes) {
  return outcomes.flatMap(({ answers }) => answers.flat()).filter((answer) => answer === "timed-out").length;
}

/** How many runs ended with each of some bytes, those of most runs first. */
function runsByBytes(outcomes) {
  const counts = new Map();
  for (const { bytes } of outcomes) counts.set(bytes.join(" "), (counts.get(bytes.join(" ")) ?? 0) + 1);
  return [...counts].sort(([, one], [, other]) => other - one);
}

/** The bytes of words, as outcomes have them. */
const wordsHex = (...words) => Buffer.from(Int32Array.from(words).buffer).toString("hex");

/** How a wrong example fails. */
const FAILS = {
  "late-notify": ["failed"], "mutex-naive": ["deadlock"], "node-cwd": ["failed"],
  "ring-frees-first": ["failed", "race"],
};

/** Makes a test of what README says about the own code of node 20. */
const withNode20 = whereNodeHasIt(process.version.startsWith("v20."));

/** What README says about runs that end alike. */
function sameBytes(outcomes) {
  assert.equal(runsByBytes(outcomes).length, 1);
  return "nothing; every run ends with the same bytes";
}

/** What README says about an example's runs, by their outcomes. */
const FOUND = {
  "late-notify": (outcomes) => {
    const failing = outcomes.filter(({ ending }) => ending === "failed");
    const [first] = failing;
    return `**${failing.length} wrong answers**, the first at seed ${first.seed}: a late notify ends the next wait`;
  },
  "late-notify-mended": sameBytes,
  "node-cwd": (outcomes) => {
    const failing = outcomes.filter(({ ending }) => ending === "failed");
    return `**${failing.length} stale directories** in node 20.20.2, the first at seed ${failing[0].seed}; `
      + "with `mended` nothing";
  },
  "mutex-naive": (outcomes) => {
    const failing = outcomes.filter(({ ending }) => ending === "deadlock");
    return `**${failing.length} deadlocks**, the first at seed ${failing[0].seed}: a wake-up is lost`;
  },
  "mutex-three-state": (outcomes) => {
    assert.deepEqual(runsByBytes(outcomes), [[wordsHex(0, 9), SEEDS]]);
    return "nothing; every run ends with all nine counts";
  },
  semaphore: (outcomes) => `nothing; ${timeOuts(outcomes)} times an agent gives up`,
  "bounded-queue": sameBytes,
  barrier: sameBytes,
  choosing: (outcomes) => {
    const all = outcomes.flatMap(({ choices }) => choices.flat());
    const rounds = all.filter(([does, goesOn]) => does === "again" && goesOn);
    return `nothing; agents make ${rounds.length.toLocaleString("en")} rounds, and give up ${timeOuts(outcomes)} times`;
  },
  ring: sameBytes,
  "ring-frees-first": (outcomes) => {
    const racing = outcomes.filter(({ races }) => races.length > 0);
    const popped = outcomes.filter(({ ending }) => ending === "failed");
    const wrong = `in ${popped.length} of them a wrong byte is popped`;
    return `**${racing.length} runs race**, the first at seed ${racing[0].seed}; ${wrong}`;
  },
  "readers-writer": (outcomes) => {
    const [[most, runs], [least, others], ...more] = runsByBytes(outcomes);
    // Round 3 of writer 0 or of writer 1.
    assert.deepEqual([[most, least].sort(), more], [[wordsHex(0, 13, 13), wordsHex(0, 23, 23)], []]);
    return `nothing; ${runs} runs end with the last write of one writer, ${others} with that of the other`;
  },
};

const README = readFileSync(join(FOLDER, "README.md"), "utf8");

/** What README's table says about an example's runs: its last column. */
function saidOf(name) {
  const row = README.split("\n").find((line) => line.startsWith(`| [${name}](`));
  return row.slice(0, -" |".length).split(" | ").at(-1);
}

/** The sums over all recorded scripts. */
const all = { scripts: 0, waits: 0, timeOuts: 0, moves: 0 };

/** Adds the outcomes of an example. */
function count(outcomes) {
  all.scripts += outcomes.length;
  all.timeOuts += timeOuts(outcomes);
  for (const { script, answers, moves } of outcomes) {
    all.moves += moves;
    JSON.parse(script).agents.forEach(({ calls }, agent) => {
      const joined = ([name], call) => name === "wait" && answers[agent][call] !== "not-equal";
      all.waits += calls.filter(joined).length;
    });
  }
}

const NAMES = readdirSync(FOLDER).filter((name) => name.endsWith(".agents.mjs")).map((name) => name.split(".")[0]);

describe("examples", () => {
  test("there are twelve", () => {
    const first = ["barrier", "bounded-queue", "choosing", "late-notify", "late-notify-mended", "mutex-naive"];
    const others = ["mutex-three-state", "node-cwd", "readers-writer", "ring", "ring-frees-first", "semaphore"];
    assert.deepEqual(NAMES.sort(), [...first, ...others]);
  });

  for (const name of NAMES) {
    (name === "node-cwd" ? withNode20 : test)(`${name} under ${SEEDS} seeds`, async () => {
      const outcomes = await outcomesOf(join(FOLDER, `${name}.agents.mjs`), SEEDS, 1);
      const failing = outcomes.filter(({ ending }) => ending !== "finished");
      if (FAILS[name] !== undefined) {
        assert.deepEqual([...new Set(failing.map(({ ending }) => ending))].sort(), FAILS[name]);
      } else {
        assert.deepEqual(failing.map(({ seed, ending, detail }) => ({ seed, ending, detail })), []);
      }
      assert.equal(saidOf(name), FOUND[name](outcomes));
      count(outcomes);
      const calls = outcomes.flatMap(({ progress }) => progress.map((agent) => agent.calls));
      assert.ok(Math.max(...calls) <= 1_000);
      const compare = async ({ seed, script, report }) => {
        const opinion = await opinions.ask(script);
        assert.equal(opinion.report, report, `the engine (actual) and the recorder (expected) differ at seed ${seed}`);
      };
      await Promise.all([...outcomes.slice(0, BY_THE_ENGINE), ...failing.slice(0, 1)].map(compare));
    });
  }

  withNode20("README counts their scripts, waits and moves", () => {
    const counted = /All ([\d,]+) scripts .* ([\d,]+) waits that joined a line and ([\d,]+) that .* ([\d,]+) moves/s;
    const said = counted.exec(README).slice(1).map((text) => Number(text.replaceAll(",", "")));
    assert.deepEqual(said, [all.scripts, all.waits, all.timeOuts, all.moves]);
  });
});

describe("the checks of the agents find a lock that isn't one", () => {
  const folder = temporaryFolder();

  const broken = {
    "mutex-naive": "class NaiveMutex { lock() {} unlock() {} }",
    "mutex-three-state": "class ThreeStateMutex { lock() {} unlock() {} }",
    "late-notify-mended": "class Calls { call() { return 0; } serve() { Atomics.load(new Int32Array(4), 0); } }",
    semaphore: "class Semaphore { acquire() { return true; } release() {} }",
    barrier: "class Barrier { arrive() {} }",
    "readers-writer": "class ReadersWriterLock { lock() {} unlock() {} lockShared() {} unlockShared() {} }",
    ring: `class Ring {
      constructor(words) { this.words = words; }
      push() {}
      pop() { return Atomics.load(this.words, 0); }
    }`,
    "bounded-queue": `class BoundedQueue {
      constructor(words) { this.words = words; this.count = 0; }
      put(value) { Atomics.store(this.words, this.count++ % 4, value); }
      take() { return Atomics.load(this.words, this.count++ % 4); }
    }`,
  };

  const uses = Object.keys(broken).map((name) => ({ name, module: name }));
  const chosen = ["mutex-three-state", "semaphore", "bounded-queue"].map((name) => ({ name, module: "choosing" }));

  for (const { name, module: agentsOf } of [...uses, ...chosen]) {
    test(agentsOf === name ? name : `${name} of ${agentsOf}`, async () => {
      const lock = broken[name];
      const agents = readFileSync(join(FOLDER, `${agentsOf}.agents.mjs`), "utf8")
        .replace(new RegExp(`^import .* from "\\./${name}\\.mjs";$`, "m"), lock)
        .replaceAll('from "./', `from "${pathToFileURL(FOLDER).href}/`);
      const module = fileIn(folder, `${name}-of-${agentsOf}.agents.mjs`, agents);
      // Without pilots each agent needs one worker less. What isn't a lock fails all the same.
      const outcomes = await outcomesOf(module, 50, 0, { everywhere: true });
      assert.ok(outcomes.some(({ ending }) => ending === "failed"));
    });
  }
});
