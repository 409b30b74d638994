// Agents that choose how many rounds they make, and what they do in each: the seed decides, a kept run has its choices,
// and a replay and the shortest run go by them.

import assert from "node:assert/strict";
import { cpSync, readFileSync, readdirSync, writeFileSync } from "node:fs";
import { join } from "node:path";
import { describe, test } from "node:test";
import { pathToFileURL } from "node:url";
import { merged, partsOf } from "../../lib/command/merging.mjs";
import { commandOptionsOf } from "../../lib/command/options.mjs";
import { Replay } from "../../lib/command/replay.mjs";
import { RunStore } from "../../lib/keeping/run-store.mjs";
import { Refused } from "../../lib/options/refused.mjs";
import { NoLongerTheSame } from "../../lib/shorter/differing.mjs";
import { choicesText } from "../../script/choices.mjs";
import { Views } from "../../page/elements.mjs";
import { Stepper } from "../../page/steps.mjs";
import { explore, record } from "../../recorder.mjs";
import { assertAgents } from "../../testing.mjs";
import { commandHere } from "../helpers/command-here.mjs";
import { commandThere, fileIn, moduleOf, refusedInALine, temporaryFolder } from "../helpers/common.mjs";

const HEAD = 'export const setup = { agents: 2, buffers: [8], names: { LOCK: 0, COUNT: 1 } };';

/** A lock whose unlock wakes nobody in one of four cases. */
const LOCK = `${HEAD}
export default function agent({ buffers, again, choose }) {
  const words = new Int32Array(buffers[0]);
  while (again()) {
    while (Atomics.compareExchange(words, 0, 0, 1) !== 0) Atomics.wait(words, 0, 1);
    Atomics.store(words, 1, Atomics.load(words, 1) + choose(3));
    Atomics.store(words, 0, 0);
    if (choose(4) > 0) Atomics.notify(words, 0, 1);
  }
}
`;

/** Each agent adds in each round, as often as it has chosen. */
const ADDS = `${HEAD}
export default function agent({ buffers, again, choose }) {
  const words = new Int32Array(buffers[0]);
  while (again()) for (let left = choose(4); left >= 0; left -= 1) Atomics.add(words, 1, 1);
}
`;

const FEW = Object.freeze({ sabsim: /** @type {const} */ (false), everywhere: true });

/** Outcomes of a module's runs. */
async function outcomesOf(module, options = {}) {
  const outcomes = [];
  for await (const outcome of explore({ module, ...FEW, ...options })) outcomes.push(outcome);
  return outcomes;
}

/** How many rounds an agent has made. */
const roundsOf = (choices) => choices.filter(([does, goesOn]) => does === "again" && goesOn).length;

test("the seed decides, on each machine in the same way", async (context) => {
  const module = moduleOf(context, ADDS);
  const drawn = (await outcomesOf(module, { seeds: 2 })).map(({ choices }) => JSON.stringify(choices));
  assert.deepEqual(drawn, DRAWN);
  assert.equal(JSON.stringify((await record({ module, ...FEW, seed: 2 })).choices), DRAWN[1]);
});

const DRAWN = [
  '[[["again",true],["choose",4,3],["again",true],["choose",4,0],["again",true],["choose",4,2],["again",true],'
  + '["choose",4,0],["again",true],["choose",4,1],["again",false]],[["again",false]]]',
  '[[["again",true],["choose",4,2],["again",false]],[["again",true],["choose",4,1],["again",true],["choose",4,3],'
  + '["again",true],["choose",4,2],["again",false]]]',
];

test("choices take nothing of the schedule: a module that makes them itself has the same script", async (context) => {
  const module = moduleOf(context, LOCK);
  const own = moduleOf(context, LOCK.replace("{ buffers, again, choose }", "{ buffers, agent, args }").replace(
    "const words", `const left = JSON.parse(args[0])[agent];
    const again = () => left.shift()[1];
    const choose = () => left.shift()[2];
    const words`,
  ));
  for (let seed = 1; seed <= 3; seed += 1) {
    const { script, report, choices } = await record({ module, ...FEW, seed });
    const same = await record({ module: own, ...FEW, seed, args: [JSON.stringify(choices)] });
    assert.deepEqual([same.script, same.report, same.choices], [script, report, undefined]);
  }
});

test("an agent makes eight rounds at most, or as many as `rounds` says", async (context) => {
  const module = moduleOf(context, ADDS);
  const mostOf = async (options) => {
    const outcomes = await outcomesOf(module, { seeds: "1..60", ...options });
    return Math.max(...outcomes.flatMap(({ choices }) => choices.map(roundsOf)));
  };
  assert.deepEqual([await mostOf(), await mostOf({ rounds: 1 }), await mostOf({ rounds: 3 })], [8, 1, 3]);
  assert.ok(await mostOf({ rounds: 1_000, seeds: "1..100" }) > 8);
});

test("a module without choices has none, and no file of them", async (context) => {
  const module = moduleOf(context, `${HEAD}
export default ({ buffers }) => void Atomics.add(new Int32Array(buffers[0]), 1, 1);
export const check = () => false;`);
  const folder = temporaryFolder(context);
  const { status } = await commandHere([module, "--seeds", "1", "--everywhere", "--check", "0", "--out", folder]);
  assert.deepEqual([status, readdirSync(folder).filter((name) => name.includes("choices"))], [1, []]);
  assert.ok(!("choices" in await record({ module, ...FEW })));
});

test("`init` and `check` get no choices, and none that an agent has kept", async (context) => {
  const [{ ending, detail }] = await outcomesOf(moduleOf(context, `${HEAD}
let kept;
const needs = (run) => {
  const got = Object.keys(run).join();
  if (got !== "agents,args" || kept !== undefined) throw new Error("it got " + got);
};
export const init = (_, run) => needs(run);
export default ({ buffers, again }) => {
  kept = again;
  Atomics.add(new Int32Array(buffers[0]), 1, 1);
};
export const check = (_, run) => needs(run);`), { seeds: 1 });
  assert.deepEqual([ending, detail], ["finished", ""]);
});

test("a number that choose doesn't take is a RangeError of the agent, and no choice", async (context) => {
  const { ending, detail, choices, failure } = await record({ module: moduleOf(context, `${HEAD}
export default ({ buffers, choose }) => {
  Atomics.add(new Int32Array(buffers[0]), 1, choose(7));
  choose(0);
};`), ...FEW });
  assert.equal(ending, "failed");
  const wanted = /^agent \d threw RangeError: choose\(n\) takes a whole number from 1 to 1000, and was given 0\n/;
  assert.match(detail, wanted);
  assert.match(failure.sources[0], /^agents\.mjs:4:3$/);
  assert.deepEqual(choices.map((made) => made.map(([does, of]) => [does, of])), [[["choose", 7]], [["choose", 7]]]);
});

test("an agent whose run is over makes no more choices; one that chooses for ever meets a limit", async (context) => {
  const over = moduleOf(context, `${HEAD}
export default ({ buffers, agent, choose }) => {
  const words = new Int32Array(buffers[0]);
  if (agent === 1) Atomics.wait(words, 0, 0);
  else Atomics.load(words, 0);
  if (agent === 0) for (;;) choose(2);
};`);
  const { ending, detail, choices } = await record({ module: over, ...FEW, seconds: 5 });
  assert.deepEqual([ending, choices.map(({ length }) => length)], ["limit", [4_000, 0]]);
  assert.match(detail, /^agent 0 has made 4000 choices, and goes on, at agents\.mjs:6:29/);
  const caught = moduleOf(context, `${HEAD}
export default ({ buffers, agent, again }) => {
  const words = new Int32Array(buffers[0]);
  for (;;) try { if (agent === 0) throw new Error("agent 0 ends it"); Atomics.wait(words, 0, 0); } catch (error) {
    if (agent === 0) throw error;
    again();
  }
};`);
  assert.match((await record({ module: caught, ...FEW })).detail, /^agent 0 threw Error: agent 0 ends it/);
});

test("a run in which no agent went on, or each chose to do nothing, is no failure", async (context) => {
  const skips = moduleOf(context, `${HEAD}
export default ({ buffers, again, choose, args }) => {
  while (again()) if (args[0] !== "rounds" && choose(2) === 0) Atomics.add(new Int32Array(buffers[0]), 1, 1);
};`);
  const outcomes = await outcomesOf(skips, { seeds: "1..60" });
  assert.ok(outcomes.some(({ calls }) => calls === 0));
  assert.deepEqual(outcomes.filter(({ fails }) => fails), []);
  // If agents go on and do nothing, nothing is tried.
  const nothing = await outcomesOf(skips, { seeds: "1..60", args: ["rounds"] });
  assert.deepEqual(
    nothing.map(({ ending, choices }) => [ending === "failed", choices.flat().some(([, goesOn]) => goesOn)]),
    nothing.map(({ choices }) => Array(2).fill(choices.flat().some(([, goesOn]) => goesOn))),
  );
});

describe("a kept run", () => {
  const first = temporaryFolder();
  let isKept = false;

  /** A folder with the kept run of the lock, which is made once. */
  async function kept(context) {
    const module = moduleOf(context, LOCK);
    if (!isKept) {
      const { status, stderr, stdout } = await commandHere([module, "--out", first, "--seeds", "15"]);
      assert.deepEqual([status, stderr], [1, ""], stdout);
    }
    isKept = true;
    const folder = temporaryFolder(context);
    cpSync(first, folder, { recursive: true });
    const text = (name) => readFileSync(join(folder, name), "utf8");
    return { module, folder, text, file: join(folder, "seed-15.json") };
  }

  /** Replays in this process. */
  function replayed(module, file, ...words) {
    const options = commandOptionsOf([module, "--replay", file, "--check", "0", ...words]);
    return new Replay(options, pathToFileURL(module).href, options.replay).run();
  }

  /** What a replay says that goes another way. */
  async function differenceOf(module, file) {
    const ended = await commandHere([module, "--replay", file]);
    assert.deepEqual([ended.status, ended.stdout], [3, ""], ended.stdout);
    return ended.stderr.replace("record: the code no longer does the same: ", "").trimEnd();
  }

  test("has its choices in a file, and is replayed by it", async (context) => {
    const { module, folder, text } = await kept(context);
    assert.equal(text("seed-15.choices.json"),
      '{"agents":[[["again",true],["choose",3,0],["choose",4,0],["again",false]],[["again",true]]]}\n');
    const { choices } = await record({ module, sabsim: false, seed: 15 });
    assert.equal(text("seed-15.original.choices.json"), choicesText(choices));
    for (const name of ["seed-15.json", "seed-15.original.json"]) {
      // Neither the seed nor the number of rounds draws anything.
      const { status, stdout, stderr } = await commandHere(
        [module, "--replay", join(folder, name), "--seeds", "99", "--rounds", "1", "--out", folder]);
      assert.deepEqual([status, stderr], [1, ""]);
      assert.match(stdout, /1 deadlock\n/);
      const again = name.replace(/json$/, "replayed.json");
      assert.equal(text(again), text(name));
      assert.equal(text(again.replace(/json$/, "choices.json")), text(name.replace(/json$/, "choices.json")));
    }
  });

  test("shows its choices at their place, in words and on its page", async (context) => {
    const { text } = await kept(context);
    const lines = text("seed-15.explained").split("\n").map((line) => line.replace(/ {2,}.*/, ""));
    assert.deepEqual(lines.slice(0, 7), [
      "agent 0 chose to go on, at agents.mjs:4:10", "agent 1 chose to go on, at agents.mjs:4:10",
      "0 0 0 begin", "1 0 0 act 0", "2 0 0 return 0", "3 1 0 begin", "4 1 0 act 1",
    ]);
    assert.deepEqual(lines.slice(-7), [
      "16 0 3 return 0", "agent 0 chose 0 of 4, at agents.mjs:8:9", "agent 0 chose not to go on, at agents.mjs:4:10",
      "block 0 0000000000000000", "agent 0 4 of 4", "agent 1 1 of 2", "",
    ]);
    const at = lines.indexOf("agent 0 chose 0 of 3, at agents.mjs:6:54");
    assert.deepEqual([lines[at - 1], lines[at + 1]], ["10 0 1 return 0", "11 0 2 begin"]);
    const [, page] = text("seed-15.html").split('<script type="application/json" id="run">');
    const run = JSON.parse(page.slice(0, page.indexOf("</script>")));
    const steps = new Stepper(run, new Views(run)).all();
    assert.deepEqual(steps.filter(({ what }) => what === "task").map(({ agent, sentence, place }) =>
      `${agent} ${sentence}, ${run.places[place]}`), [
      "0 chose to go on, agents.mjs:4:10", "1 chose to go on, agents.mjs:4:10", "0 chose 0 of 3, agents.mjs:6:54",
      "0 chose 0 of 4, agents.mjs:8:9", "0 chose not to go on, agents.mjs:4:10",
    ]);
  });

  test("is replayed by the choices of the run whose schedule a page has changed", async (context) => {
    const { module, folder, text } = await kept(context);
    const { failed } = await replayed(module, fileIn(folder, "seed-15.changed.json", text("seed-15.json")));
    assert.ok(failed);
  });

  test("ends with status 3 if the code asks something else, and both are shown", async (context) => {
    const { module, folder, file } = await kept(context);
    const where = join(folder, "seed-15.choices.json");
    const changed = (from, to) => writeFileSync(module, LOCK.replace(from, to));
    changed("choose(3)", "choose(5)");
    assert.equal(await differenceOf(module, file),
      `agent 0's choice 1 was choose(3), which returned 0, in ${where}, and is now choose(5), at agents.mjs:6:54`);
    changed("choose(3)", "Number(again())");
    assert.equal(await differenceOf(module, file),
      `agent 0's choice 1 was choose(3), which returned 0, in ${where}, and is now again(), at agents.mjs:6:61`);
    changed("while (again()) {", "while (again()) { if (choose(9)) continue;");
    assert.equal(await differenceOf(module, file),
      `agent 0's choice 1 was choose(3), which returned 0, in ${where}, and is now choose(9), at agents.mjs:4:25`);
    changed("if (choose(4) > 0)", "if (false)");
    assert.equal(await differenceOf(module, file),
      `agent 0's choice 2 was choose(4), which returned 0, in ${where}, and is now again(), at agents.mjs:4:10`);
    changed("while (again()) {", "for (let round = 0; round < 1 && again(); round += 1) {");
    assert.equal(await differenceOf(module, file),
      `agent 0's choice 3 was again(), which returned false, in ${where}, and isn't made now`);
    changed("  }\n}", "  }\n  choose(9);\n}");
    assert.equal(await differenceOf(module, file),
      `agent 0's choice 4 is choose(9), at agents.mjs:10:3, and isn't in ${where}`);
    await assert.rejects(replayed(module, file), NoLongerTheSame);
  });

  test("that was kept without choices is replayed without any", async (context) => {
    const { module, folder, text } = await kept(context);
    const file = fileIn(folder, "seed-3.json", text("seed-15.json"));
    assert.equal(await differenceOf(module, file), `agent 0's choice 0 is again(), at agents.mjs:4:10, and there is no `
      + `${join(folder, "seed-3.choices.json")}: the kept run had no choices`);
  });

  test("whose choices don't fit is refused", async (context) => {
    const { module, folder, file } = await kept(context);
    const where = fileIn(folder, "seed-15.choices.json", '{"agents":[[]]}\n');
    const why = `${where}, which has the choices for ${file}, doesn't fit it: it has choices of 1 agents, and the `
      + "script's run had 2";
    assert.throws(() => replayed(module, file), (error) => error instanceof Refused && error.message === why);
  });

  test("leaves no choices of another run beside it", (context) => {
    const folder = temporaryFolder(context);
    const outcome = { seed: 5, script: "{}", choices: [[["again", true]]] };
    const first = new RunStore(folder);
    first.keepFirst(/** @type {any} */ (outcome));
    first.keepShortest(/** @type {any} */ (outcome), /** @type {any} */ (outcome));
    assert.equal(readdirSync(folder).filter((name) => name.endsWith("choices.json")).length, 2);
    const without = { seed: 5, script: "{}" };
    const second = new RunStore(folder);
    second.keepFirst(/** @type {any} */ (without));
    second.keepShortest(/** @type {any} */ (without), /** @type {any} */ (without));
    assert.deepEqual(readdirSync(folder).sort(), ["seed-5.json", "seed-5.original.json"]);
  });
});

describe("the shortest run", () => {
  /** The choices of the shortest run that fails as the first one that makes more than two rounds. */
  async function shortestOf(context, code) {
    const module = moduleOf(context, code);
    const found = await outcomesOf(module, { seeds: "1..60" });
    const { seed } = found.find(({ fails, choices }) => fails && roundsOf(choices[0]) > 2);
    const { choices, original, shortened } = await record({ module, ...FEW, seed, shorten: true });
    assert.equal(shortened.unchanged, undefined);
    return { choices, original };
  }

  /** Fails only in runs of eight rounds, by what agent 0 does in its first one. */
  const FIRST_OF_EIGHT = `${HEAD}
export default function agent({ buffers, agent, again, choose }) {
  const words = new Int32Array(buffers[0]);
  for (let round = 0; again(); round += 1) {
    if (agent === 0 && round === 0) Atomics.store(words, 0, 7);
    for (let left = choose(3); left >= 0; left -= 1) Atomics.add(words, 1, 1);
  }
}
export const check = ([buffer]) => new Int32Array(buffer)[0] === 0;
`;

  test("has one round if the first of eight fails", async (context) => {
    const module = moduleOf(context, FIRST_OF_EIGHT);
    const outcomes = await outcomesOf(module, { seeds: "1..60" });
    const { seed } = outcomes.find(({ choices }) => roundsOf(choices[0]) === 8);
    const { choices, original } = await record({ module, ...FEW, seed, shorten: true });
    assert.equal(roundsOf(original.choices[0]), 8);
    assert.deepEqual(choices, [[["again", true], ["choose", 3, 0], ["again", false]], [["again", false]]]);
  });

  test("has one round if the last one fails, and numbers as small as they can be", async (context) => {
    const { choices } = await shortestOf(context, `${HEAD}
export default function agent({ buffers, agent, again, choose }) {
  const words = new Int32Array(buffers[0]);
  while (again()) {
    Atomics.add(words, 0, 1);
    if (choose(1_000) >= 700) throw new Error("it is too much");
  }
}`);
    assert.deepEqual(choices.filter(({ length }) => length > 1), [[["again", true], ["choose", 1_000, 700]]]);
  });

  test("has fewer rounds of all agents if these need each other", async (context) => {
    const { choices, original } = await shortestOf(context, `${HEAD}
export default function agent({ buffers, agent, again }) {
  while (again()) Atomics.add(new Int32Array(buffers[0]), agent, 1);
}
export function check([buffer]) {
  const [one, other] = new Int32Array(buffer);
  return one !== other || one < 2;
}`);
    assert.ok(roundsOf(original.choices[0]) > 2);
    assert.deepEqual(choices.map(roundsOf), [2, 2]);
  });
});

describe("many runs", () => {
  test("have the same choices whatever the number of jobs", async (context) => {
    const module = moduleOf(context, ADDS);
    const one = await outcomesOf(module, { seeds: "1..40", everywhere: false });
    const two = await outcomesOf(module, { seeds: "1..40", everywhere: false, jobs: 2 });
    assert.deepEqual(two.map(({ choices }) => choices), one.map(({ choices }) => choices));
    assert.deepEqual(two.map(({ script }) => script), one.map(({ script }) => script));
  });

  test("are joined from shards, if each had as many rounds", async (context) => {
    const module = moduleOf(context, ADDS);
    const folder = temporaryFolder(context);
    const summaryOf = async (...words) => {
      const all = [module, "--seeds", "1..20", "--everywhere", "--format", "json", ...words];
      return fileIn(folder, `${words.join("").replaceAll("/", "-")}.json`, (await commandHere(all)).stdout);
    };
    const files = await Promise.all([summaryOf("--shard", "1/2"), summaryOf("--shard", "2/2"), summaryOf()]);
    const [one, other, all] = files.flatMap(partsOf);
    const whole = merged([one, other]);
    assert.deepEqual([whole.runs, whole.states], [all.summary.runs, all.summary.states]);
    const third = partsOf(await summaryOf("--shard", "2/2", "--rounds", "3"));
    assert.throws(() => merged([one, ...third]), refusedInALine(/--rounds is not given in the one and 3 in the other/));
  });

  test("are repeated by the first seed's run, and a module that asks other questions is noticed", async (context) => {
    const remembers = async (code) => (await outcomesOf(moduleOf(context, code), { seeds: 5 })).at(-1).remembers;
    assert.equal(await remembers(ADDS), undefined);
    const other = await remembers(`${HEAD}
let runs = 0;
export default ({ buffers, choose }) => {
  runs += 1;
  choose(runs > 1 ? 3 : 2);
  Atomics.add(new Int32Array(buffers[0]), 1, 1);
};`);
    assert.deepEqual([other.seed, other.differs], [1, "acts"]);
  });

  test("are checked once if they are exact repeats, with whatever choices", async (context) => {
    const module = moduleOf(context, `${HEAD}
export default ({ buffers, choose }) => {
  choose(1_000);
  Atomics.add(new Int32Array(buffers[0]), 1, 1);
};`);
    const outcomes = await outcomesOf(module, { seeds: "1..6", sabsim: undefined });
    assert.equal(new Set(outcomes.map(({ script }) => script)).size < 6, true);
    assert.equal(new Set(outcomes.map(({ choices }) => JSON.stringify(choices))).size, 6);
    assert.ok(outcomes.every(({ checked }) => checked));
  });
});

describe("options", () => {
  test("a test of a suite takes `rounds`, and its failure shows what agents chose", async (context) => {
    const module = moduleOf(context, LOCK);
    const out = temporaryFolder(context);
    await assert.rejects(assertAgents({ module, out, rounds: 2, seeds: "15..30" }), (error) => {
      assert.match(error.message, /\n {2}- 0 2 +chose 0 of 3, at agents\.mjs:6:54\n/);
      assert.match(error.message, /kept in .*: seed-\d+\.json, seed-\d+\.choices\.json, /);
      return error.name === "RunFailed";
    });
  });

  test("a number of rounds that can't be is refused, and so is one for a program", async (context) => {
    const module = moduleOf(context, LOCK);
    for (const rounds of [0, 1_001, 1.5]) {
      const refusal = refusedInALine(/`rounds` must be a whole number from 1 to 1,?000/);
      await assert.rejects(record({ module, rounds }), refusal);
    }
    await assert.rejects(record({ program: module, rounds: 2 }), refusedInALine(/`rounds` doesn't go with `program`/));
    const { status, stderr } = await commandHere(["--program", module, "--rounds", "2"]);
    assert.deepEqual([status, stderr.startsWith("record: --rounds doesn't go with --program: ")], [2, true], stderr);
  });
});

test("a program gets no choices", async (context) => {
  const module = moduleOf(context, "if ([typeof again, typeof choose].some((it) => it !== 'undefined')) throw 1;");
  const { status, stderr } = await commandThere(["--program", module, "--seeds", "1"]);
  assert.equal(status, 0, stderr);
});
