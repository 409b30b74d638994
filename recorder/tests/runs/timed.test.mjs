// Runs with timed waits: in which order they end, what is reported of a run that fails only after an early end, and of
// a lost wake-up that a time hides.

import assert from "node:assert/strict";
import { readFileSync, readdirSync } from "node:fs";
import { join } from "node:path";
import { describe, it } from "node:test";
import { Summary } from "../../lib/command/summary.mjs";
import { defaultsOf } from "../../lib/options/table.mjs";
import { durationText, earlyText } from "../../lib/run/ending/timed-ends.mjs";
import { FirstFailing, comesBefore } from "../../lib/run/order.mjs";
import { shorten } from "../../lib/shorter/shorten.mjs";
import { explore, record } from "../../recorder.mjs";
import { assertAgents } from "../../testing.mjs";
import { agentsPath, commandThere, temporaryFolder } from "../helpers/common.mjs";
import { groupOf } from "../helpers/groups.mjs";
import { placeIn, recorded, seedsTo, summaryLines } from "../helpers/recorded.mjs";

const { timeouts: DEFAULT_TIMEOUTS } = defaultsOf("record");

/** @type {Map<string, { seeds: number, outcomes: Promise<import("../../lib/run/outcome.mjs").Outcome[]> }>} */
const made = new Map();

/** Without pilots, half as many workers are needed. */
const FEW_WORKERS = { agents: 2, everywhere: true };
const WITH_PILOTS = { everywhere: false };

/** The outcomes of a program. Tests that ask for the same runs share them. */
async function outcomesOf(name, seeds, options = {}) {
  const asked = { module: agentsPath("timed"), args: [name], timeouts: DEFAULT_TIMEOUTS, ...FEW_WORKERS, ...options };
  const key = JSON.stringify(asked);
  const known = made.get(key);
  const isEnough = known !== undefined && known.seeds >= seeds;
  const { outcomes } = isEnough ? known : { outcomes: recorded(asked, seedsTo(seeds)) };
  if (!isEnough) made.set(key, { seeds, outcomes });
  return (await outcomes).slice(0, seeds);
}

/** The words of the buffer at the end. */
const wordsOf = ({ bytes }) => [...new Int32Array(Uint8Array.from(Buffer.from(bytes[0], "hex")).buffer)];

const endingsOf = (outcomes) => [...new Set(outcomes.map(({ ending }) => ending))].sort();

/** What is reported of waits that ended only because their time was up. */
const hiddenOf = (outcomes) => summaryLines(outcomes).filter((line) => line.includes("only because"));

describe("runs with timed waits", { concurrency: 2 }, () => {
  it("the earliest deadline ends first, and of two with as long a time the one that began first", async () => {
    const outcomes = await outcomesOf("order", 20, { agents: 4, timeouts: 0 });
    const orders = new Set(outcomes.map((outcome) => wordsOf(outcome).slice(0, 5).join(" ")));
    assert.deepEqual([...orders].sort(), ["4 3 4 2 1", "4 4 3 2 1"]);
  });

  it("a sleeper doesn't starve beside a spin, nor beside an agent that polls", async () => {
    for (const options of [{ timeouts: 0, ...WITH_PILOTS }, { timeouts: 0.05 }]) {
      for (const name of ["spins", "polls"]) {
        const outcomes = await outcomesOf(name, 25, options);
        assert.deepEqual(endingsOf(outcomes), ["finished"]);
        for (const { calls } of outcomes) assert.ok(calls < 700, `${calls} calls`);
      }
    }
  });

  it("an agent that has spun goes on when something has changed, and no time passes before", async () => {
    assert.deepEqual(endingsOf(await outcomesOf("relays", 50, { agents: 3, timeouts: 0 })), ["finished"]);
  });

  it("an agent that spins for a while before it wakes another one lets no time pass", async () => {
    assert.deepEqual(endingsOf(await outcomesOf("adaptive", 50, { timeouts: 0 })), ["finished"]);
  });

  it("a run that fails only after an early end says what time must pass", async () => {
    const outcomes = await outcomesOf("early", 200);
    const failing = outcomes.filter(({ fails }) => fails);
    assert.ok(failing.length > 10, `${failing.length} runs`);
    for (const { onlyIf } of failing) assert.equal(onlyIf, "only if 5 s pass before agent 1's next call");
    for (const { fails, onlyIf } of outcomes) assert.ok(fails || onlyIf === undefined);
    const lines = summaryLines(outcomes);
    assert.equal(lines[1], `${failing.length} failing runs fail only after the early end of a timed wait (--timeouts)`);
    assert.ok(lines.includes("  only if 5 s pass before agent 1's next call"), lines.join("\n"));
    const none = await outcomesOf("early", 50, { timeouts: 0 });
    assert.deepEqual(endingsOf(none), ["finished"]);
  });

  it("the first failing run is one without an early end", async () => {
    const outcomes = await outcomesOf("both", 100);
    const failing = outcomes.filter(({ fails }) => fails);
    const plain = failing.find(({ onlyIf }) => onlyIf === undefined);
    assert.ok(failing[0].onlyIf !== undefined && plain.seed > failing[0].seed);
    const [first] = summaryLines(outcomes).filter((line) => line.startsWith("first failing seed"));
    assert.equal(first, `first failing seed: ${plain.seed}, threw`);
  });

  it("a run is shortened to one without an early end, though one that has it is shorter", async (context) => {
    const failing = (await outcomesOf("skips", 100, { timeouts: 1 })).filter(({ fails }) => fails);
    const group = await groupOf(context, agentsPath("timed"), { args: ["skips"], timeouts: 1, ...FEW_WORKERS });
    for (const isEarly of [false, true]) {
      const found = failing.find(({ onlyIf }) => (onlyIf !== undefined) === isEarly) ?? assert.fail("no such run");
      const { shortest, shortened } = await shorten(group, found);
      const { onlyIf, detail } = shortest?.outcome ?? found;
      assert.equal(onlyIf, undefined, JSON.stringify(shortened));
      assert.match(detail, /^agent 0 threw Error: nobody has woken it/);
    }
  });

  it("what a run before has left isn't reported of one whose `init` fails", async (context) => {
    let fails = false;
    const init = () => {
      if (fails) throw new Error("no more");
    };
    const { seed } = (await outcomesOf("early", 200)).find(({ onlyIf }) => onlyIf !== undefined);
    const options = { args: ["early"], init, timeouts: DEFAULT_TIMEOUTS, ...FEW_WORKERS };
    const group = await groupOf(context, agentsPath("timed"), options);
    const early = await group.one({ seed, whole: true });
    assert.ok(early.outcome.onlyIf !== undefined && early.outcome.served !== undefined);
    fails = true;
    const { outcome } = await group.one({ seed: seed + 1, whole: true });
    assert.match(outcome.detail, /^init threw Error: no more/);
    assert.deepEqual([outcome.onlyIf, outcome.onlyByTime, outcome.served], [undefined, undefined, undefined]);
  });

  it("with `never` a time ends nothing, and a lost wake-up is a deadlock", async () => {
    const outcomes = await outcomesOf("lost", 20, { timeouts: "never" });
    assert.deepEqual(endingsOf(outcomes), ["deadlock", "finished"]);
    const [lost] = outcomes.filter(({ ending }) => ending === "deadlock");
    assert.match(lost.detail, /^agent 0 waits at .*\["wait", "Int32", 8, 0, 500\]/);
    // A sleep on memory of one's own isn't waited for by anybody, nor is a wait without time.
    assert.deepEqual(endingsOf(await outcomesOf("naps", 10, { timeouts: "never" })), ["finished"]);
    assert.deepEqual(endingsOf(await outcomesOf("sleeps", 3, { timeouts: "never" })), ["deadlock"]);
  });

  it("a lost wake-up that a time hides is reported with its line, and a sleep isn't", async () => {
    const rest = "wait(words, 8, 0, 500);\n    ";
    const programs = [["lost", 0, `${rest}else Atomics.store`], ["alone", 0, `${rest}else Atomics.notify`],
      ["crossed", 1, `${rest}Atomics.store`], ["amid", 0, `${rest}else Atomics.store(new`]];
    for (const [name, agent, text] of programs) {
      const outcomes = await outcomesOf(name, 50, { races: "allow" });
      assert.deepEqual(endingsOf(outcomes), ["finished"]);
      const count = outcomes.filter(({ onlyByTime = [] }) => onlyByTime.length > 0).length;
      assert.ok(count > 0 && count < 50, `${count} runs`);
      const line = `agent ${agent} went on at ${placeIn("timed", text)} only because its 500 ms were over, `
        + `in ${count} of 50 runs`;
      assert.deepEqual(hiddenOf(outcomes), [line]);
    }
    const asleep = await outcomesOf("sleeps", 10);
    assert.ok(asleep.some(({ onlyByTime }) => onlyByTime.length > 0));
    assert.deepEqual(hiddenOf(asleep), []);
    // What is early isn't the only thing that could go on, and what is woken needs no time.
    for (const name of ["early", "spins", "polls"]) assert.deepEqual(hiddenOf(await outcomesOf(name, 50)), []);
  });

  it("the same seed gives the same run, and so does its row, with each of the rules", async (context) => {
    const partOf = ({ ending, script, onlyIf, onlyByTime, served }) => ({ ending, script, onlyIf, onlyByTime, served });
    const rules = [["polls", { timeouts: 0, ...WITH_PILOTS }], ["spins", { timeouts: 0.05 }],
      ["lost", { timeouts: "never" }], ["lost", { timeouts: 0 }], ["early", { timeouts: 1 }]];
    for (const [name, options] of rules) {
      const found = await outcomesOf(name, 5, options);
      const group = await groupOf(context, agentsPath("timed"), { args: [name], ...FEW_WORKERS, ...options });
      for (const outcome of found) {
        const { seed } = outcome;
        const again = await group.one({ seed, whole: true, wantsRow: true });
        assert.deepEqual(partOf(again.outcome), partOf(outcome));
        const { row } = again.outcome;
        const forced = await group.one({ seed, whole: true, row, isExact: true });
        assert.deepEqual([forced.aside.divergence, partOf(forced.outcome)], [undefined, partOf(outcome)]);
      }
    }
  });
});

describe("what comes first of failing runs", () => {
  const early = (seed) => ({ seed, fails: true, onlyIf: "only if" });
  const plain = (seed) => ({ seed, fails: true });

  it("is the lowest seed without an early end, and else the lowest", () => {
    assert.deepEqual([comesBefore(plain(9), early(1)), comesBefore(early(1), plain(9))], [true, false]);
    assert.deepEqual([comesBefore(plain(1), plain(2)), comesBefore(early(2), early(1))], [true, false]);
    const first = new FirstFailing();
    const taken = [{ fails: false }, early(2), early(3), plain(4), plain(5), early(6)].map((run) => first.takes(run));
    assert.deepEqual(taken, [false, true, false, true, false, false]);
    const other = new FirstFailing();
    assert.deepEqual([plain(1), early(2)].map((run) => other.takes(run)), [true, false]);
  });

  it("is described by the time, the agent and how many more waits ended early", () => {
    const early = { milliseconds: 5_000, other: 1, before: "call", more: 0 };
    assert.equal(earlyText(early), "only if 5 s pass before agent 1's next call");
    assert.equal(earlyText({ ...early, before: "wait", milliseconds: 1, more: 1 }),
      "only if 1 ms passes before agent 1 goes on (and 1 more wait ends early)");
    assert.equal(earlyText({ ...early, more: 3 }),
      "only if 5 s pass before agent 1's next call (and 3 more waits end early)");
    const durations = [0.123456, 0.5, 999, 1_500, 60_000].map(durationText);
    assert.deepEqual(durations, ["0.123 ms", "0.5 ms", "999 ms", "1.5 s", "60 s"]);
  });
});

describe("joined, kept and stopped", { concurrency: 2 }, () => {
  const folder = temporaryFolder();
  const both = { module: agentsPath("timed"), args: ["both"], sabsim: false, ...FEW_WORKERS };

  it("`failFast` ends at the first failing run without an early end", async () => {
    const failing = [];
    for await (const outcome of explore({ ...both, seeds: "1..100", failFast: true })) {
      if (outcome.fails) failing.push(outcome.onlyIf === undefined);
    }
    assert.deepEqual([failing.at(0), failing.at(-1), failing.indexOf(true)], [false, true, failing.length - 1]);
  });

  it("a test of agents fails by such a run, or by an early one if there is no other", async () => {
    const failed = async (args, seeds) => {
      const options = { ...FEW_WORKERS, module: both.module, args, seeds, shorten: false,
        out: join(folder, `${args}`) };
      return assertAgents(options).then(() => assert.fail("none failed"), ({ message }) => message);
    };
    const message = await failed(["both"], "1..100");
    assert.ok(!message.includes("only if"), message);
    assert.match(await failed(["early"], "1..100"), /only if 5 s pass before agent 1's next call/);
  });

  it("summaries of shards, joined, have the same first failing run and the same waits as one", async () => {
    const outcomes = [];
    for await (const outcome of explore({ ...both, seeds: "1..100" })) outcomes.push(outcome);
    for await (const { seed, ...outcome } of explore({ ...both, args: ["alone"], seeds: "1..40" })) {
      outcomes.push({ ...outcome, seed: seed + 100 });
    }
    const rules = { ordinary: "watch", races: "fail" };
    const whole = new Summary(rules);
    for (const outcome of outcomes) whole.add(outcome);
    const joined = new Summary(rules);
    for (const from of [70, 0]) {
      const part = new Summary(rules);
      for (const outcome of outcomes.slice(from, from === 0 ? 70 : undefined)) part.add(outcome);
      joined.join(JSON.parse(JSON.stringify(part.data())));
    }
    assert.deepEqual(joined.data(), whole.data());
    assert.ok(whole.data().early > 0 && whole.data().onlyByTime.listed.length > 0);
  });

  it("the command line keeps the first one, by one job and by two", async () => {
    const words = [both.module, "--seeds", "1..100", "--no-shorten", "--format", "json", "--agents", "2",
      "--everywhere"];
    const summaries = await Promise.all([1, 2].map(async (jobs) => {
      const out = join(folder, `jobs-${jobs}`);
      const more = ["--jobs", `${jobs}`, "--out", out, "--", "both"];
      const { stdout } = await commandThere([...words, ...more]);
      return { ...JSON.parse(stdout), files: readdirSync(out).sort() };
    }));
    const [one, two] = summaries;
    assert.deepEqual([one.firstFailing, one.early, one.files], [two.firstFailing, two.early, two.files]);
    assert.ok(one.early > 0);
    assert.equal(one.firstFailing.onlyIf, null);
    const { seed } = one.firstFailing;
    for (const ending of ["json", "report", "trace.jsonl"]) assert.ok(one.files.includes(`seed-${seed}.${ending}`));
  });

  it("a script of a deadlock by `never` is replayed with the same option, and its page has it", async () => {
    const out = join(folder, "never");
    /** @param {string[]} words */
    const ran = (words) => commandThere([both.module, "--timeouts", "never", ...words, "--", "lost"]);
    const { stdout } = await ran(["--no-shorten", "--out", out]);
    const [, seed] = /first failing seed: (\d+), deadlock/.exec(stdout) ?? assert.fail(stdout);
    const script = join(out, `seed-${seed}.json`);
    assert.match(readFileSync(join(out, `seed-${seed}.html`), "utf8"), /--timeouts never/);
    const again = await ran(["--replay", script]);
    assert.match(again.stdout, /1 of 1 run failed: 1 deadlock/);
    const other = await record({ ...both, args: ["lost"], seed: Number(seed), timeouts: "never" });
    assert.equal(other.ending, "deadlock");
  });
});
