// --replay: the agents run once more by the row of a kept script, and where the code no longer does the same it is said
// what it does in place of that.

import assert from "node:assert/strict";
import { spawnSync } from "node:child_process";
import { readFileSync, realpathSync, writeFileSync } from "node:fs";
import { join } from "node:path";
import { test } from "node:test";
import { pathToFileURL } from "node:url";
import { commandOptionsOf } from "../../lib/command/options.mjs";
import { Replay } from "../../lib/command/replay.mjs";
import { Refused } from "../../lib/options/refused.mjs";
import { NoLongerTheSame } from "../../lib/shorter/differing.mjs";
import { keptScript } from "../../lib/shorter/kept-script.mjs";
import { explore, record } from "../../recorder.mjs";
import { commandHere } from "../helpers/command-here.mjs";
import { RECORD, commandNow, fileIn, temporaryFolder } from "../helpers/common.mjs";
import { CHECKING } from "../helpers/needs.mjs";

// A relay with an `init`, ordinary writes, waits with and without a time, and an end that its `check` may find wrong.
const CODE = `
export const setup = { agents: 2, buffers: [32] };

export function init([buffer]) {
  new Int32Array(buffer)[5] = 77;
}

export default function agent({ buffers: [buffer], agent }) {
  const words = new Int32Array(buffer);
  if (agent === 0) {
    Atomics.wait(words, 6, 0, 5);
    words[4] = 12;
    Atomics.store(words, 0, 1);
    Atomics.notify(words, 0, 1);
  } else {
    while (Atomics.load(words, 0) === 0) Atomics.wait(words, 0, 0);
    Atomics.add(words, 1, Math.floor(Math.random() * 1000) + words[4]);
  }
}

export const check = ([buffer]) => new Int32Array(buffer)[1] < 0;
`;

/** The seed of the run that is kept, which its `check` finds wrong. */
const KEPT_SEED = 4;

/**
 * @type {import("../../lib/library/record-runs.mjs").RecordedOutcome | undefined} of the run that is kept, once it was
 * made
 */
let kept;

/** A folder with the module and with the kept script of its run. @param {import("node:test").TestContext} context */
async function keptRun(context) {
  const folder = temporaryFolder(context);
  const module = fileIn(folder, "relay.mjs", CODE);
  kept ??= await record({ module, agents: 2, everywhere: true, seed: KEPT_SEED, sabsim: false });
  assert.equal(kept.ending, "check");
  const file = fileIn(folder, `seed-${KEPT_SEED}.json`, kept.script);
  return { folder, module, file, outcome: kept };
}

/** Replays in this process. @param {string} module @param {string} file @param {string[]} words */
function replayed(module, file, ...words) {
  const options = commandOptionsOf([module, "--replay", file, "--check", "0", ...words]);
  return new Replay(options, pathToFileURL(module).href, options.replay).run();
}

/** Replays by the command line. */
const replay = commandNow;

test("a kept run is made again, and the simulator says the same of it", async (context) => {
  const { module, file, outcome } = await keptRun(context);
  const { status, stdout, stderr } = replay([module, "--replay", file, ...CHECKING]);
  assert.deepEqual([status, stderr], [1, ""], stderr);
  const lines = stdout.trimEnd().split("\n");
  assert.deepEqual(lines.slice(0, 6), [
    `replayed ${file}, with the clocks and random numbers of seed 4`,
    "1 of 1 run failed: 1 check failed",
    "first failing seed: 4, check failed",
    "  check returned false",
    "1 final state: how it ended, and the bytes",
    // What agent 1 has added is a random number of the seed.
    `  1 run check failed, seed 4 the first: ${outcome.bytes[0].slice(0, 48)}…`,
  ]);
  assert.match(lines[6],
    /^every run was replayed and judged by the simulator \([\w ]+\): it agrees with the recorder$/);
});

test("the seed is that of the file's name, or of --seeds, or else 1", async (context) => {
  const { folder, module, file, outcome } = await keptRun(context);
  const other = fileIn(folder, "other.json", outcome.script);
  const words = [module, "--replay", other, "--check", "0"];
  const given = await commandHere([...words, "--seeds", "4"]);
  assert.equal(given.status, 1);
  assert.ok(given.stdout.startsWith(`replayed ${other}, with the clocks and random numbers of seed 4\n`));
  // With seed 1 agent 1 adds another number, which is reported.
  const { status, stdout, stderr } = await commandHere(words);
  assert.deepEqual([status, stdout], [3, ""]);
  assert.match(stderr, /^record: the code no longer does the same: agent 1's call \d was \["add", "Int32", 1, \d+\] /);
  await assert.rejects(replayed(module, file, "--seeds", "1"), NoLongerTheSame);
});

test("if the code now finishes with the same calls, the status is 0", async (context) => {
  const { module, file } = await keptRun(context);
  writeFileSync(module, CODE.replace("< 0", ">= 0"));
  const { status, stdout } = await commandHere([module, "--replay", file, "--check", "0"]);
  assert.equal(status, 0);
  assert.match(stdout, /^replayed [^\n]+\n1 run: 1 finished\n/);
});

test("the code's first difference from the script is reported", async (context) => {
  const { module, file, outcome } = await keptRun(context);
  const { draws, steps } = keptScript(outcome.script, file);
  assert.deepEqual(steps.slice(0, 1).map(({ text }) => text), ["Int32[5] = 77"]);
  assert.ok(draws.length > 4);
  const changed = [
    ["store(words, 0, 1)", "store(words, 0, 2)",
      'agent 0\'s call 1 was ["store", "Int32", 0, 1] in the script, and is now ["store", "Int32", 0, 2]'],
    ["Atomics.notify(words, 0, 1);", "",
      'agent 0\'s call 2 was ["notify", "Int32", 0, 1] in the script, and now the agent hasn\'t come so far: it has '],
    ["Atomics.notify(words, 0, 1);", "Atomics.notify(words, 0, 1); Atomics.load(words, 0);",
      "agent 0 goes on where the script ends"],
    ["words[4] = 12;", "", 'agent 1\'s call [^\n]* and is now ["add", '],
    ["= 77", "= 78",
      "`init` left Int32[5] = 77 in the script, and is now Int32[5] = 78"],
    ["words[4] = 12;", "words[4] = 12; words[7] = 3;",
      "agent 0 makes an ordinary write before its call 1 that isn't in the script, Int32[7] = 3"],
  ];
  for (const [from, to, how] of changed) {
    assert.ok(CODE.includes(from), from);
    writeFileSync(module, CODE.replace(from, to));
    await assert.rejects(replayed(module, file), (error) => {
      assert.ok(error instanceof NoLongerTheSame, error.stack);
      const [start, end = ""] = how.split("[^\n]*");
      const difference = error.message.replace("the code no longer does the same: ", "");
      assert.ok(difference.startsWith(start) && difference.includes(end), `${difference}\nand not\n${how}`);
      return true;
    });
  }
});

/**
 * The kept script of a run of two agents in which agent 0 waits at word 0, and the code after a change.
 * @param {import("node:test").TestContext} context
 * @param {[string, string]} written what agent 0 writes before it waits, before and after the change
 * @param {boolean} joins whether it is to have waited in the line
 */
async function changedBefore(context, [before, after], joins) {
  const folder = temporaryFolder(context);
  const module = join(folder, "waits.mjs");
  const code = (write) => `
    export const setup = { agents: 2, buffers: [8] };
    export default function agent({ buffers: [buffer], agent }) {
      const words = new Int32Array(buffer);
      if (agent === 1) Atomics.notify(words, 0, 1);
      else {
        ${write}
        Atomics.wait(words, 0, 0);
        Atomics.load(words, 1);
        throw new Error("it is woken");
      }
    }`;
  writeFileSync(module, code(before));
  for await (const { seed, ending, answers, script } of explore({ module, seeds: 50, checkEvery: 1 })) {
    if (ending !== "failed" || answers[0][0] !== (joins ? "ok" : "not-equal")) continue;
    const file = fileIn(folder, `seed-${seed}.json`, script);
    writeFileSync(module, code(after));
    return { module, file };
  }
  return assert.fail("no seed does it");
}

test("an agent that now goes on from a wait at once, or still waits, is reported", async (context) => {
  const write = "words[0] = 1;";
  const wait = 'agent 0 was still in its call 0, ["wait", "Int32", 0, 0], in the script, and now ';
  const load = 'agent 0\'s call 1 was ["load", "Int32", 1] in the script, and now ';
  const changed = [
    [["", write], true, `${wait}it makes the next one, ["load", "Int32", 1]`],
    [[write, ""], false, `${load}the agent hasn't come so far: it still waits`],
  ];
  for (const [written, joins, how] of changed) {
    const { module, file } = await changedBefore(context, written, joins);
    await assert.rejects(replayed(module, file), (error) => {
      assert.equal(error.message, `the code no longer does the same: ${how}`);
      return error instanceof NoLongerTheSame;
    });
  }
});

test("a file that is no script of the recorder is refused, and options of another run", async (context) => {
  const { folder, module, file, outcome } = await keptRun(context);
  const script = JSON.parse(outcome.script);
  const { schedule: moves } = script;
  const written = (name, text) => fileIn(folder, name, text);
  const changed = (change) => JSON.stringify({ ...script, ...change });
  const wrong = [
    [join(folder, "none.json"), /^--replay .*none\.json can't be read: ENOENT/],
    [written("report", outcome.report), /^.*report is no script that the recorder has kept: [^\n]+$/],
    [written("empty.json", "{}"), /is no script that the recorder has kept: it has no blocks$/],
    [written("null.json", "null"), /is no script that the recorder has kept: it has no blocks$/],
    [written("views.json", changed({ views: [{ name: "Int32" }] })), /its view "Int32" isn't one$/],
    [written("short.json", changed({ schedule: moves.slice(0, -3) })), /agent \d has calls that its schedule/],
    [written("split.json", changed({ schedule: [0, 1, ...moves] })), /its move 0 doesn't make a call in a row$/],
  ];
  for (const [path, why] of wrong) {
    assert.throws(() => replayed(module, path), { constructor: Refused, message: why });
  }
  // Of these --replay leaves out the moves, since they have no effect.
  const idle = [[[...moves, 1, 1, 1], /its move \d+ belongs to no call$/], [[{ timeout: 0 }, ...moves], /isn't$/]];
  for (const [schedule, why] of idle) assert.throws(() => keptScript(changed({ schedule }), "idle.json"), why);
  const options = [
    [["--agents", "3"], "--agents is 3, but the script's run had 2: leave it out, the script has it"],
    [["--buffers", "8,8"], "--buffers is 8,8, but the script's run had 32: leave it out, the script has it"],
    [["--seeds", "1..4"], '--replay makes one run: --seeds must be one seed, but is "1..4"'],
  ];
  for (const [words, why] of options) {
    assert.throws(() => replayed(module, file, ...words), (error) => error instanceof Refused && error.message === why);
  }
  const { status, stderr } = replay([module, "--replay", join(folder, "report")]);
  assert.equal(status, 2);
  assert.match(stderr, /^record: [^\n]+\n$/);
});

test("a debugger of the process stops in the agents, and the time of agents isn't up meanwhile", async (context) => {
  const { folder, module, file } = await keptRun(context);
  const debuggerFile = new URL("../agents/debugger.mjs", import.meta.url).href;
  const seconds = ["--seconds", "1"];
  // A debugger knows a module by its own path, and not by that of a link (STOP_IN).
  const words = ["--inspect=127.0.0.1:0", "--import", debuggerFile, RECORD, module, "--replay", file, "--check", "0"];
  const { status, stdout, stderr } = spawnSync(process.execPath, [...words, ...seconds], {
    encoding: "utf8", timeout: 60_000, env: { ...process.env, STOP_IN: realpathSync(module), STOP_FOR: "1500" },
  });
  assert.equal(status, 1, stderr);
  assert.match(stderr, /^Debugger listening on ws:/m);
  const line = CODE.split("\n").findIndex((text) => text.includes("Atomics.store(words, 0, 1)")) + 1;
  // Once, since the agents run once: there are no pilots, and no second run for the lines of code.
  const stops = stderr.split("\n").filter((text) => text.startsWith("stopped in ") && text.endsWith(" in agent"));
  assert.deepEqual(stops, [`stopped in relay.mjs at line ${line}, in agent`]);
  assert.match(stdout, /^1 of 1 run failed: 1 check failed$/m);
  assert.ok(readFileSync(join(folder, "relay.mjs"), "utf8") === CODE);
});
