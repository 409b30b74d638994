// The library: what its options may be, and what each of them does.

import assert from "node:assert/strict";
import { readFileSync } from "node:fs";
import { test } from "node:test";
import { pathToFileURL } from "node:url";
import { Difference, NoSabsim, Refused, explore, record } from "../../recorder.mjs";
import {
  LIES, agentsIn, agentsPath, recordCase, refusedInALine, shellProgram, temporaryFolder,
} from "../helpers/common.mjs";
import { CHECKER, NOWHERE, hasSabsim, withShell } from "../helpers/needs.mjs";
import { simulated } from "../helpers/simulate.mjs";

const module = agentsPath("cases");

/**
 * @param {string} name of a file of types
 * @returns {string} its text, with that of the files of which it exports all
 */
function typesOf(name) {
  const text = readFileSync(new URL(`../../${name}`, import.meta.url), "utf8");
  const others = [...text.matchAll(/^export \* from "\.\/([\w-]+)\.cjs";$/gm)];
  return [text, ...others.map(([, other]) => typesOf(`${other}.d.cts`))].join("\n");
}

test("each entry of the package exports the functions and classes that its types declare, and no others", async () => {
  for (const entry of ["recorder.mjs", "testing.mjs", "testing.cjs"]) {
    const types = typesOf(entry.replace(/mjs|cjs/, "d.cts"));
    const declared = [...types.matchAll(/^export (?:declare )?(?:function|class|const) (\w+)/gm)]
      .map(([, name]) => name);
    assert.ok(declared.length > 1);
    const { default: all, ...named } = await import(`../../${entry}`);
    assert.deepEqual(Object.keys(all ?? named).sort(), declared.sort());
  }
});

test("each option that can't be is refused, with one line that names it", async () => {
  const wrong = {
    agents: [0, 17, 1.5, "2", null],
    buffers: [4, [], [4, 4, 4, 4, 4], [-1], [65_537], ["4"], [4, , 4], null],
    noBlock: [1, [-1], [16], ["1"], [true], [, 1], null],
    seed: [-1, 1.5, 2 ** 53, "1", 1n, NaN, null],
    args: ["abc", [1], ["a", , "b"], { 0: "a", length: 1 }, null],
    strategy: ["random", "switch:2", "switch:", "switch:-0", 0.5, null],
    everywhere: ["yes", 1, null],
    timeouts: ["0.5", -0.1, 1.1, NaN, null, "Never"],
    maxMoves: [0, 100_001, 1.5, "7", null],
    seconds: [0, -1, 3_601, "5", NaN, Infinity, null],
    ordinary: ["see", "Watch", true, "toString", ["watch"], null],
    races: ["ignore", true, null],
    limits: ["ignore", false, null],
    unrecorded: ["ignore", true, null],
    clock: ["simulated", 0, null],
    init: [true, "init", null],
    check: ["yes", 1, true, false, null],
    sabsim: ["", 5, null],
    trace: ["yes", 1, null],
  };
  const named = {
    agents: "number of agents", buffers: "buffer", noBlock: "`noBlock`",
    ...Object.fromEntries(Object.keys(wrong).slice(3).map((name) => [name, `\`${name}\``])),
  };
  for (const [name, values] of Object.entries(wrong)) {
    for (const value of values) {
      const why = refusedInALine(new RegExp(named[name]), `${name}: ${String(value)}`);
      await assert.rejects(record({ module, [name]: value }), why);
    }
  }
});

test("the module must be named, and options that there aren't are refused by their names", async () => {
  const refused = (options, message) => assert.rejects(record(options), { constructor: Refused, message });
  for (const given of [undefined, null, "module.mjs", 5]) await refused(given, "the options must be an object");
  for (const given of [{}, { module: undefined }, { module: 5 }, { module: "" }, { module: null }]) {
    await refused(given, /^`module` [^\n]+$/);
  }
  const near = {
    "no-block": "noBlock", Seed: "seed", agent: "agents", bufers: "buffers", timeout: "timeouts",
    max_moves: "maxMoves", race: "races", trcae: "trace",
  };
  for (const [name, meant] of Object.entries(near)) {
    await refused({ module, [name]: 1 }, `there is no option \`${name}\`: is ${meant} meant?`);
  }
  for (const name of ["jobs", "count", "constructor", "__proto__x"]) {
    const why = new RegExp(`^there is no option \`${name}\`: there are module, program, agents, buffers, .*, trace$`);
    await refused({ module, [name]: 1 }, why);
  }
});

test("the strategy is mixed if none is given", async () => {
  const given = (options) => recordCase("racy", { agents: 3, seed: 11, trace: false, ...options });
  assert.deepEqual(await given({ strategy: "mixed" }), await given({}));
});

test("options of earlier versions are refused with what there is in their place", async () => {
  const refusals = [
    [{ switch: 0.5 }, 'there is no option `switch`: use `strategy: "switch:P"`'],
    [{ bounds: "allow" }, "there is no option `bounds`: use `limits`"],
  ];
  for (const [given, message] of refusals) {
    const run = recordCase("racy", { agents: 3, seed: 11, ...given });
    await assert.rejects(run, { constructor: Refused, message });
  }
});

test("an option that is undefined is one that isn't given", async () => {
  const given = await recordCase("addition", { seed: 1, timeouts: undefined, ordinary: undefined, init: undefined });
  assert.deepEqual(given, await recordCase("addition"));
});

test("a module may be given by a path or a URL", async () => {
  const options = { agents: 1, buffers: [12], args: ["addition"], sabsim: false };
  for (const each of [module, pathToFileURL(module), pathToFileURL(module).href]) {
    assert.equal((await record({ ...options, module: each })).ending, "finished");
  }
});

test("the outcome is whole", async () => {
  const { seed, ending, fails, calls, bytes, answers, state, races, scriptHolds, trace } =
    await recordCase("addition", { sabsim: CHECKER, seed: 9 });
  assert.deepEqual([seed, ending, fails, calls, trace], [9, "finished", false, 6, undefined]);
  assert.deepEqual([bytes, state.shown], [["030000000300000000000000"], ["030000000300000000000000"]]);
  assert.deepEqual([answers, races, scriptHolds], [[["0", "1", "2"], ["0", "1", "2"]], [], "all"]);
});

test("the outcome's report is what sabsim replays of its script", async () => {
  const { script, report } = await recordCase("addition", { sabsim: CHECKER, seed: 9 });
  assert.equal(simulated(["replay"], script).output, report);
});

test("sabsim is asked unless `sabsim` is false", withShell, async (context) => {
  await assert.rejects(recordCase("addition", { sabsim: NOWHERE }), NoSabsim);
  await assert.rejects(recordCase("addition", { check: () => {}, sabsim: NOWHERE }), NoSabsim);
  assert.equal((await recordCase("addition", { sabsim: false })).ending, "finished");
  const lying = shellProgram(temporaryFolder(context), LIES);
  await assert.rejects(recordCase("addition", { sabsim: lying }), (error) => {
    assert.ok(error instanceof Difference);
    assert.equal(error.outcome.seed, 1);
    return true;
  });
});

/** What happens while the environment chooses a program. @param {string} place @param {() => Promise<any>} act */
async function withSabsimAt(place, act) {
  const { SABSIM: before } = process.env;
  try {
    process.env.SABSIM = place;
    return await act();
  } finally {
    process.env.SABSIM = before;
  }
}

/** An outcome of the library's whose options choose no program. @param {object} [options] */
const recordAddition = (options = {}) =>
  record({ module, agents: 2, buffers: [12], args: ["addition"], everywhere: true, ...options });

test("the environment chooses the program, and the options go before it", () =>
  withSabsimAt(NOWHERE, async () => {
    for (const options of [{}, { sabsim: true }, { check() {}, sabsim: undefined }]) {
      await assert.rejects(recordAddition(options), NoSabsim);
    }
    assert.equal((await recordAddition({ sabsim: false })).checked, false);
    if (hasSabsim) assert.equal((await recordAddition({ sabsim: CHECKER })).checked, true);
  }));

test("the outcome says whether the simulator has checked the run", async () => {
  for (const sabsim of [true, undefined, CHECKER]) {
    const found = await withSabsimAt("", () => recordAddition({ sabsim }));
    assert.deepEqual([found.checked, found.unchecked], [true, undefined]);
  }
  // More is written between two calls than a script has calls for.
  const { checked, unchecked, noScript } = await record({
    module: agentsPath("big-writes"), args: ["overwhelms 400"], agents: 2, buffers: [65_536], sabsim: CHECKER,
    everywhere: true,
  });
  assert.deepEqual([checked, unchecked], [false, `the run has no script: ${noScript}`]);
});

test("a run of which sabsim isn't asked says so", async () => {
  const { checked, unchecked } = await recordAddition({ sabsim: false });
  assert.deepEqual([checked, unchecked], [false, "the options say that sabsim isn't asked"]);
});

test("`init` fills the buffers before the run, and the script has what it wrote", async () => {
  const seen = [];
  const init = (buffers, run) => {
    seen.push([buffers.map((buffer) => buffer.byteLength), run]);
    new Int32Array(buffers[0]).set([40, 50, 60]);
  };
  const { bytes, script } = await recordCase("addition", { sabsim: CHECKER, init });
  assert.deepEqual(seen, [[[12], { agents: 2, args: ["addition"] }]]);
  // Three is added to the first two words.
  assert.deepEqual(bytes, [Buffer.from(Int32Array.of(43, 53, 60).buffer).toString("hex")]);
  assert.equal(JSON.parse(script).agents.length, 3);
});

test("`init` fills the buffers before each pilot too, and the outcome shows nothing else of pilots", async () => {
  let calls = 0;
  const init = (buffers) => {
    calls += 1;
    new Int32Array(buffers[0])[2] = 60;
  };
  const check = ([buffer]) => assert.equal(new Int32Array(buffer)[2], 60);
  const { ending, calls: made } = await recordCase("addition", { init, check, everywhere: false });
  assert.deepEqual([ending, made], ["finished", 6]);
  assert.ok(calls > 1 && calls < 20, `${calls} calls of init`);
});

test("what `init` throws fails the run", async () => {
  const init = () => {
    throw new Error("nothing to begin with");
  };
  const { ending, fails, detail } = await recordCase("addition", { init });
  assert.deepEqual([ending, fails], ["failed", true]);
  assert.match(detail, /nothing to begin with/);
});

test("a function `check` is called after a run that finished; what it throws fails the run", async () => {
  const seen = [];
  const check = (buffers, run) => {
    seen.push([[...new Int32Array(buffers[0])], run]);
  };
  assert.equal((await recordCase("addition", { check })).ending, "finished");
  assert.deepEqual(seen, [[[3, 3, 0], { agents: 2, args: ["addition"] }]]);
  const throws = () => {
    throw new Error("a sum is wrong");
  };
  const { ending, fails, detail, script } = await recordCase("addition", { check: throws });
  assert.deepEqual([ending, fails], ["check", true]);
  assert.match(detail, /a sum is wrong/);
  assert.notEqual(script, undefined);
  // One that did not finish has failed already.
  assert.equal((await recordCase("waitsForEver", { check: throws })).ending, "deadlock");
});

test("`trace` adds the trace: an object for each event, a line for each", async () => {
  const { trace } = await recordCase("addition", { trace: true });
  const events = trace.trimEnd().split("\n").map((line) => JSON.parse(line));
  // Two agents add three times each.
  assert.equal(events.length, 6);
  for (const agent of [0, 1]) assert.equal(events.filter((event) => event.agent === agent).length, 3);
});

/** Two agents that write to one word without a call between them, and then call. */
const RACY = `
  const words = new Int32Array(buffers[0]);
  words[0] = agent + 1;
  Atomics.add(words, 1, 1);
`;

const OF_TWO = { agents: 2, buffers: [8], sabsim: false, everywhere: true };

test("`races` says whether a run with unordered accesses fails", async (context) => {
  const options = { module: agentsIn(temporaryFolder(context), RACY), ...OF_TWO };
  const failing = await record(options);
  assert.deepEqual([failing.ending, failing.fails, failing.races.length], ["race", true, 1]);
  const allowed = await record({ ...options, races: "allow" });
  assert.deepEqual([allowed.ending, allowed.fails], ["finished", false]);
  assert.deepEqual(allowed.races.map(({ lines }) => lines), failing.races.map(({ lines }) => lines));
});

test("`ordinary` says what is seen of reads and writes", async (context) => {
  const options = { module: agentsIn(temporaryFolder(context), RACY), ...OF_TWO };
  const stored = await record({ ...options, ordinary: "store" });
  assert.deepEqual([stored.ending, stored.races], ["finished", []]);
  assert.equal((await record({ ...options, ordinary: "refuse" })).ending, "failed");
});

test("`limits` says whether a run that meets a limit fails", async () => {
  const options = { agents: 1, maxMoves: 50 };
  const failing = await recordCase("spins", options);
  assert.deepEqual([failing.ending, failing.fails], ["limit", true]);
  const allowed = await recordCase("spins", { ...options, limits: "allow" });
  assert.deepEqual([allowed.ending, allowed.fails], ["limit", false]);
});

test("with `clock: run` the same seed gives the same time, and `clock: real` gives the machine's", async (context) => {
  const path = agentsIn(temporaryFolder(context), `
    const words = new Int32Array(buffers[0]);
    Atomics.store(words, 0, Date.now() > 1_600_000_000_000 ? 1 : 0);
    Atomics.store(words, 1, Math.floor(Math.random() * 1_000_000_000));
  `);
  const drawn = async (clock) => {
    const { bytes } = await record({ module: path, agents: 1, buffers: [8], sabsim: false, clock });
    return bytes[0];
  };
  assert.equal(await drawn("run"), await drawn("run"));
  assert.match(await drawn("real"), /^01000000/);
});

test("with `timeouts` 0 a wait that can be woken isn't ended by its time, and with 1 it may be", async (context) => {
  const path = agentsIn(temporaryFolder(context), `
    const words = new Int32Array(buffers[0]);
    if (agent === 0) {
      Atomics.store(words, 1, Atomics.wait(words, 0, 0, 60_000) === "timed-out" ? 1 : 2);
    } else {
      for (let time = 0; time < 20; time += 1) Atomics.load(words, 0);
      Atomics.store(words, 0, 1);
      Atomics.notify(words, 0);
    }
  `);
  /** The first seed whose run says that the time was up. */
  const firstOf = async (timeouts, last) => {
    const options = { module: path, agents: 2, buffers: [8], sabsim: false, timeouts, seeds: last, everywhere: true };
    for await (const { state, seed } of explore(options)) if (state.shown[0].endsWith("01000000")) return seed;
    return undefined;
  };
  assert.equal(await firstOf(0, 4), undefined);
  assert.notEqual(await firstOf(1, 12), undefined);
});
