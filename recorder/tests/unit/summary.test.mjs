// The summary of many runs. The runs are made up.

import assert from "node:assert/strict";
import { createHash } from "node:crypto";
import { test } from "node:test";
import { whyNoSummary } from "../../lib/command/summary-form.mjs";
import { summaryText } from "../../lib/command/summary-text.mjs";
import { Summary } from "../../lib/command/summary.mjs";
import { MOST_KEYS, Tally } from "../../lib/command/tally.mjs";
import { countText, digits } from "../../lib/run/words/summary-words.mjs";

const SEEN = { ordinary: "watch", races: "fail", checkedBy: "module 123" };
/** What it says about the runs that the module has checked; one alone is no repeat. */
const checkedLine = (which, repeats = ", except exact repeats") =>
  `${which} replayed and judged by the simulator (WebAssembly module)${repeats}: it agrees with the recorder`;

/**
 * An outcome, of which a test says what matters to it.
 * @param {number} seed
 * @param {object} [parts]
 */
function outcome(seed, parts = {}) {
  const { ending = "finished", fails = ending !== "finished", shown = ["01"], named = null, ...rest } = parts;
  const state = { hash: `${ending} ${shown.join(" ")}`, shown, named };
  return { seed, ending, fails, detail: "", moves: 6, calls: 2, ordinary: 0, progress: [], state, races: [], ...rest };
}

/**
 * The lines of a summary.
 * @param {object[]} outcomes
 * @param {{ checked?: number, stop?: object } & object} [options]
 */
function linesOf(outcomes, { checked = 1, stop, ...options } = {}) {
  const summary = new Summary({ ...SEEN, ...options });
  outcomes.forEach((each, at) => summary.add({ ...each, checked: at < checked }));
  const text = summary.text(stop);
  assert.ok(text.endsWith("\n"));
  return text.slice(0, -1).split("\n");
}

/** Many seeds, each with an outcome of the same parts. */
const seeds = (first, last, parts) => Array.from({ length: last - first + 1 }, (_, at) => outcome(first + at, parts));

const race = (one, other) => ({ lines: [one, other], text: `${one} races with ${other}` });

test("a summary reports failures first, and is the same in whatever order the runs come", () => {
  const ring = [race("ring.mjs:12:7", "ring.mjs:20:11")];
  const outcomes = [
    ...seeds(1, 185, { shown: ["0900"], calls: 40, ordinary: 5 }),
    ...seeds(186, 190, { ending: "deadlock", detail: "agent 0 waits\nagent 1 waits", shown: ["0700"] }),
    outcome(191, { ending: "deadlock", detail: "another", shown: ["0800"] }),
    ...seeds(192, 194, { ending: "race", detail: "two of them race", shown: ["0900"], races: ring }),
  ];
  const expected = [
    "9 of 194 runs failed: 6 deadlock, 3 race; 185 finished",
    "first failing seed: 186, deadlock",
    "  agent 0 waits",
    "  agent 1 waits",
    "unordered accesses: 3 runs, 1 pair of lines",
    "  seed 192 the first, 3 runs: ring.mjs:12:7 and ring.mjs:20:11",
    "4 final states: how it ended, and the bytes",
    "  5 runs deadlock, seed 186 the first: 0700",
    "  3 runs race, seed 192 the first: 0900",
    "  1 run deadlock, seed 191 the first: 0800",
    "  185 runs finished, seed 1 the first: 0900",
    checkedLine("28 of 194 runs were"),
    // 185 times 40 and 9 times 2; 185 times 5.
    "194 runs made 7,418 calls of Atomics, and 925 ordinary reads and writes",
  ];
  assert.deepEqual(linesOf(outcomes, { checked: 28 }), expected);
  assert.deepEqual(linesOf(outcomes.toReversed(), { checked: 28 }), expected);
});

test("if no run failed, the first line says how the runs ended", () => {
  assert.equal(linesOf(seeds(1, 200))[0], "200 runs: 200 finished");
  assert.equal(linesOf([outcome(5)])[0], "1 run: 1 finished");
  const allowed = [...seeds(1, 197), ...seeds(198, 200, { ending: "limit", fails: false })];
  const lines = linesOf(allowed);
  assert.equal(lines[0], "200 runs: 197 finished, 3 limit met (allowed)");
  assert.ok(lines.includes("  3 runs limit met (allowed), seed 198 the first: 01"));
  assert.ok(!lines.some((line) => line.includes("first failing seed")));
});

test("if all runs failed, the summary says that none has finished", () => {
  assert.equal(linesOf([outcome(5, { ending: "failed" })])[0], "1 of 1 run failed: 1 stopped");
  const both = [outcome(1, { ending: "check" }), outcome(2, { ending: "limit", detail: "too much" })];
  assert.equal(linesOf(both)[0], "2 of 2 runs failed: 1 check failed, 1 limit met");
});

test("limits that are allowed stand behind the runs that finished, and those that fail before", () => {
  const mixed = [outcome(1), outcome(2, { ending: "limit", fails: false }), outcome(3, { ending: "race" })];
  assert.equal(linesOf(mixed)[0], "1 of 3 runs failed: 1 race; 1 finished, 1 limit met (allowed)");
});

test("failing states come before finished ones, eight at most", () => {
  const failing = Array.from({ length: 7 }, (_, at) => outcome(100 + at, { ending: "deadlock", shown: [`d${at}`] }));
  const finished = Array.from({ length: 5 }, (_, at) => seeds(at * 10, at * 10 + 8, { shown: [`f${at}`] })).flat();
  const lines = linesOf([...finished, ...failing]);
  const title = lines.indexOf("12 final states: how it ended, and the bytes");
  assert.deepEqual(lines.slice(title + 1, title + 10), [
    ...[0, 1, 2, 3, 4, 5, 6].map((at) => `  1 run deadlock, seed ${100 + at} the first: d${at}`),
    "  9 runs finished, seed 0 the first: f0",
    "  and 4 more",
  ]);
});

test("states are compared by their hashes, so two that begin alike are two; an empty buffer is a dash", () => {
  const alike = (seed, hash) => ({ ...outcome(seed), state: { hash, shown: ["00…", ""], named: null } });
  const lines = linesOf([alike(1, "x"), alike(2, "y"), alike(3, "y")]);
  assert.deepEqual(lines.slice(1, 4), [
    "2 final states: how it ended, and the bytes",
    "  2 runs finished, seed 2 the first: 00… | -",
    "  1 run finished, seed 1 the first: 00… | -",
  ]);
});

test("a summary lists each pair of lines once, with its first seed and its runs; it lists at most eight", () => {
  const often = race("a.mjs:1:1", "a.mjs:2:1");
  const outcomes = Array.from({ length: 10 }, (_, at) => {
    const own = race(`b.mjs:${at}:1`, "b.mjs:77:1");
    return outcome(20 - at, { ending: "race", races: at === 0 ? [own] : [often, own] });
  });
  const lines = linesOf(outcomes);
  const title = lines.indexOf("unordered accesses: 10 runs, 11 pairs of lines");
  assert.deepEqual(lines.slice(title + 1, title + 10), [
    "  seed 11 the first, 9 runs: a.mjs:1:1 and a.mjs:2:1",
    ...[9, 8, 7, 6, 5, 4, 3].map((at) => `  seed ${20 - at} the first, 1 run: b.mjs:${at}:1 and b.mjs:77:1`),
    "  and 3 more",
  ]);
});

test("a summary lists races that are allowed too, and races of runs that failed otherwise", () => {
  const races = [race("a.mjs:1:1", "a.mjs:2:1")];
  const allowed = linesOf([outcome(1, { races }), outcome(2)], { races: "allow" });
  assert.equal(allowed[0], "2 runs: 2 finished");
  assert.deepEqual(allowed.slice(1, 3), [
    "unordered accesses, allowed: 1 run, 1 pair of lines", "  seed 1 the first, 1 run: a.mjs:1:1 and a.mjs:2:1",
  ]);
  const failed = linesOf([outcome(1, { ending: "deadlock", detail: "it waits", races })]);
  assert.ok(failed.includes("unordered accesses: 1 run, 1 pair of lines"));
});

test("a summary reports scripts that hold only a part, and runs without a script", () => {
  const holding = { scriptHolds: "touched" };
  const whole = { scriptHolds: "all" };
  const none = { ending: "limit", detail: "it is too long", noScript: "it would have 2,000 calls" };
  const lines = linesOf([outcome(1, holding), outcome(2, holding), outcome(3, whole), outcome(4, none)]);
  assert.deepEqual(lines.slice(1, 4), [
    "first failing seed: 4, limit met", "  it is too long", "  it has no script: it would have 2,000 calls",
  ]);
  const checked = lines.indexOf(checkedLine("1 of 4 runs was", ""));
  assert.deepEqual(lines.slice(checked + 1, checked + 3), [
    "2 scripts hold only the ordinary writes of bytes that calls touch, since not all fit; their other bytes " +
      "weren't compared",
    "1 run has no script, and wasn't replayed: it would have 2,000 calls",
  ]);
  const one = linesOf([outcome(1, holding)]);
  assert.ok(one.includes(
    "1 script holds only the ordinary writes of bytes that calls touch, since not all fit; its other bytes " +
      "weren't compared",
  ));
  const unchecked = linesOf([outcome(1, none), outcome(2, none)], { checked: 0, checkedBy: undefined });
  assert.ok(unchecked.includes("no run was checked"));
  assert.ok(unchecked.includes("2 runs have no script: it would have 2,000 calls"));
});

test("the last lines say what was not seen", () => {
  const last = (options) => linesOf(seeds(1, 2, { ordinary: 3 }), options).at(-1);
  assert.equal(last({ ordinary: "watch" }), "2 runs made 4 calls of Atomics, and 6 ordinary reads and writes");
  assert.equal(
    last({ ordinary: "store" }),
    "ordinary reads were not seen, and of ordinary writes only what they changed between two calls, so unordered " +
      "accesses were not looked for",
  );
  assert.equal(last({ ordinary: "refuse" }), last({ ordinary: "store" }));
  assert.match(last({ ordinary: "watch", preloads: true }), /^node's own options, as --require, .* were not seen$/);
  for (const ordinary of ["store", "refuse"]) {
    assert.equal(linesOf(seeds(1, 2), { ordinary }).at(-2), "2 runs made 4 calls of Atomics");
  }
});

test("the last line counts calls and accesses in words, with their plurals", () => {
  const last = (calls, ordinary) => linesOf([outcome(1, { calls, ordinary })]).at(-1);
  assert.equal(last(0, 0), "1 run made no call of Atomics, and no ordinary read or write");
  assert.equal(last(1, 1), "1 run made 1 call of Atomics, and 1 ordinary read or write");
  assert.equal(last(9_432, 1_000_000), "1 run made 9,432 calls of Atomics, and 1,000,000 ordinary reads and writes");
  assert.deepEqual([0, 12, 999, 1_000, 123_456, 1_234_567].map(digits), [
    "0", "12", "999", "1,000", "123,456", "1,234,567",
  ]);
  assert.equal(countText(1, "seed"), "1 seed");
  assert.deepEqual([1, 1_000].map((count) => countText(count, "access", "accesses")), ["1 access", "1,000 accesses"]);
});

test("if not all runs were made, the first line says so", () => {
  const stop = { why: "interrupted by SIGINT", wanted: 1_000_000 };
  assert.deepEqual(linesOf(seeds(1, 3), { stop }).slice(0, 2), [
    "interrupted by SIGINT after 3 of 1,000,000 runs", "3 runs: 3 finished",
  ]);
  assert.deepEqual(linesOf([], { stop }), ["interrupted by SIGINT after 0 of 1,000,000 runs"]);
});

test("what is kept of a run doesn't grow with its bytes and its texts", () => {
  const summary = new Summary(SEEN);
  const long = "0".repeat(1_000_000);
  summary.add(outcome(7, { ending: "failed", detail: "the first", script: long }));
  for (let seed = 8; seed < 20; seed += 1) {
    const texts = { detail: long, script: long, report: long, trace: long, bytes: [long] };
    summary.add(outcome(seed, { ending: "failed", ...texts }));
  }
  // The maps of a Summary are looked into as its fields are.
  const room = JSON.stringify(summary, (_, value) => (value instanceof Map ? [...value] : value)).length;
  assert.ok(room < 2_000_000, `${room} characters are kept`);
  assert.equal(summary.failing.seed, 7);
});

test("versions of node that weren't tried are joined; an earlier summary names none", () => {
  const options = { ordinary: "watch", races: "fail" };
  const [one, other, both] = [new Summary(options), new Summary(options), new Summary(options)];
  one.untriedNodes.add("26.1.0");
  other.untriedNodes.add("22.9.0");
  const { untriedNodes, ...earlier } = other.data();
  assert.deepEqual(untriedNodes, ["22.9.0"]);
  for (const data of [one.data(), earlier, other.data(), one.data()]) both.join(data);
  assert.deepEqual(both.data().untriedNodes, ["22.9.0", "26.1.0"]);
});

test("the object of a summary has all that its text has, and what the text leaves out", () => {
  const summary = new Summary(SEEN);
  const races = [race("ring.mjs:12:7", "ring.mjs:20:11")];
  const noScript = "it is too long";
  const failing = { ending: "race", detail: "one\ntwo", onlyIf: "only if", shown: ["0900", ""], races, noScript };
  const wait = { agent: 0, line: "ring.mjs:12:7", milliseconds: 500, block: 0, byte: 8 };
  const place = { block: 0, byte: 8 };
  const checked = { calls: 5, ordinary: 7, checked: true, onlyByTime: [wait], served: [place] };
  for (const each of [outcome(4, failing), ...seeds(1, 2, { calls: 5, ordinary: 7 }), outcome(3, checked)]) {
    summary.add(each);
  }
  const kept = { folder: "found", path: "/tmp/found", files: ["seed-4.report"] };
  const stopped = { why: "stopped", wanted: 9 };
  const data = summary.data({ stopped, kept, notKept: ["not kept: this"], problems: ["a job ended"] });
  assert.deepEqual(data, {
    stopped,
    missing: [],
    runs: 4,
    failed: 1,
    endings: {
      failing: [{ ending: "race", runs: 1, first: 4 }], passing: [{ ending: "finished", runs: 3, first: 1 }],
    },
    firstFailing: {
      seed: 4, ending: "race", detail: ["one", "two"], onlyIf: "only if", noScript: "it is too long", standing: [],
    },
    early: 1,
    onlyByTime: { listed: [{ ...wait, runs: 1, first: 3 }], others: 0, served: [place] },
    threw: 0,
    failures: { listed: [], others: 0 },
    shortened: null,
    races: {
      allowed: false, runs: 1,
      pairs: { listed: [{ lines: ["ring.mjs:12:7", "ring.mjs:20:11"], runs: 1, early: 1, first: 4 }], others: 0 },
    },
    unrecorded: { allowed: false, runs: 0, used: { listed: [], others: 0 } },
    real: { runs: 0, used: { listed: [], others: 0 } },
    remembers: null,
    states: {
      failing: {
        listed: [{ ending: "race", hash: "race 0900 ", shown: ["0900", ""], named: null, runs: 1, early: 1, first: 4 }],
        others: 0,
      },
      passing: {
        listed: [{ ending: "finished", hash: "finished 01", shown: ["01"], named: null, runs: 3, early: 0, first: 1 }],
        others: 0,
      },
    },
    sabsim: { asked: true, versions: ["module 123"], checked: 1, judges: true },
    scripts: { parts: 0, none: { listed: [{ why: "it is too long", runs: 1, first: 4 }], others: 0 } },
    calls: 17,
    accesses: 21,
    unseen: [],
    untriedNodes: [],
    kept,
    notKept: ["not kept: this"],
    problems: ["a job ended"],
  });
  assert.deepEqual(JSON.parse(JSON.stringify(data)), data);
  const lines = summaryText(data).split("\n");
  assert.equal(lines[0], "stopped after 4 of 9 runs");
  assert.equal(lines[2], "1 failing run fails only after the early end of a timed wait (--timeouts)");
  const hidden = "agent 0 went on at ring.mjs:12:7 only because its 500 ms were over, in 1 of 4 runs";
  assert.ok(lines.includes(hidden), lines.join("\n"));
  const asleep = { ...data, onlyByTime: { ...data.onlyByTime, served: [{ block: 1, byte: 8 }] } };
  assert.ok(!summaryText(asleep).includes("only because"));
  assert.deepEqual(lines.slice(-3), ["kept in found: seed-4.report", "not kept: this", ""]);
  const options = { ...SEEN, unrecorded: "fail", args: [], preloads: false };
  const asked = { module: "m.mjs", digest: "", seeds: [], shard: null, options };
  assert.equal(whyNoSummary({ summary: 4, asked, seeds: [], ...data }), undefined);
});

/** Runs with races and states of which some come only after an early end of a timed wait. */
function earlyRuns() {
  const [one, other, both] = ["a.mjs:1:1", "b.mjs:1:1", "c.mjs:1:1"].map((line) => race(line, "z.mjs:9:9"));
  const onlyIf = "only if 5 s pass before agent 1's next call";
  const raced = (seed, races, shown, parts) => outcome(seed, { ending: "race", races, shown: [shown], ...parts });
  return [
    raced(1, [one], "01", { onlyIf }), raced(2, [one], "01", { onlyIf }), raced(3, [both], "03", { onlyIf }),
    raced(4, [both], "03", { onlyIf }), raced(5, [other], "02"), raced(6, [both], "03"), outcome(7, { shown: ["07"] }),
    ...[8, 9].map((seed) =>
      thrown(seed, { message: ["agent 0 threw 1"], sources: [] }, "failed", { onlyIf, shown: ["08"] })),
    thrown(10, { message: ["agent 0 threw no"], sources: [] }, "failed", { shown: ["09"] }),
  ];
}

test("races, failures and states that come only after an early end stand behind the others, in text and JSON", () => {
  const outcomes = earlyRuns();
  const expected = [
    "2 kinds of failure, by message and line of code",
    "  1 run threw, seed 10 the first",
    "    agent 0 threw no",
    "  2 runs threw, seed 8 the first, only after the early end of a timed wait",
    "    agent 0 threw 1",
    "unordered accesses: 6 runs, 3 pairs of lines",
    "  seed 6 the first, 3 runs: c.mjs:1:1 and z.mjs:9:9",
    "  seed 5 the first, 1 run: b.mjs:1:1 and z.mjs:9:9",
    "  seed 1 the first, 2 runs, only after the early end of a timed wait: a.mjs:1:1 and z.mjs:9:9",
    "6 final states: how it ended, and the bytes",
    "  3 runs race, seed 6 the first: 03",
    "  1 run race, seed 5 the first: 02",
    "  1 run threw, seed 10 the first: 09",
    "  2 runs race, seed 1 the first, only after the early end of a timed wait: 01",
    "  2 runs threw, seed 8 the first, only after the early end of a timed wait: 08",
    "  1 run finished, seed 7 the first: 07",
  ];
  const whole = new Summary(SEEN);
  for (const each of outcomes) whole.add(each);
  const from = (lines) => lines.slice(lines.indexOf(expected[0]), lines.indexOf(expected[0]) + expected.length);
  assert.deepEqual(from(whole.text().split("\n")), expected);
  assert.deepEqual(from(linesOf(outcomes.toReversed())), expected);
  const expectedData = whole.data();
  assert.deepEqual(expectedData.races.pairs.listed.map(({ runs, early, first }) => [runs, early, first]), [
    [3, 2, 6], [1, 0, 5], [2, 2, 1],
  ]);
  // Whatever is joined with what, the first run of an entry is one without an early end.
  const parts = [[0, 3], [3, 5], [5, 10]].map(([begin, end]) => {
    const part = new Summary(SEEN);
    for (const each of outcomes.slice(begin, end)) part.add(each);
    return part.data();
  });
  for (const order of [[0, 1, 2], [2, 1, 0], [1, 2, 0]]) {
    const joined = new Summary(SEEN);
    for (const at of order) joined.join(parts[at]);
    assert.deepEqual(joined.data(), expectedData);
  }
});

/** An outcome of a run that threw. @param {number} seed @param {{ message: string[], sources: string[] }} failure */
const thrown = (seed, failure, ending = "failed", parts = {}) =>
  outcome(seed, { ending, detail: failure.message.join("\n"), failure, ...parts });

test("failures are grouped by message and line, those of most runs first, with their counts and first seeds", () => {
  const inside = (number) => ({ message: [`agent ${number} threw Error: ${number} inside`], sources: ["a.mjs:15:9"] });
  const other = { message: ["agent 0 threw Error: 7 inside"], sources: ["a.mjs:16:9"] };
  const check = { message: ["check threw Error: permits must be back", "1 !== 2"], sources: ["a.mjs:22:11"] };
  const waits = { message: ["an agent waits at BELL"], sources: ["b.mjs:3:1", "b.mjs:4:1"] };
  const spin = { message: ["agent 1 spins at c.mjs:5:18: it goes on"], sources: ["c.mjs:5:18"] };
  const outcomes = [
    ...seeds(1, 4), thrown(9, inside(1)), thrown(8, inside(0)), thrown(10, other), thrown(11, check, "check"),
    thrown(12, check, "check"), thrown(13, check, "check"), thrown(14, waits, "deadlock"), thrown(15, spin, "limit"),
  ];
  const expected = [
    "8 of 12 runs failed: 1 deadlock, 3 threw, 3 check failed, 1 limit met; 4 finished",
    "first failing seed: 8, threw",
    "  agent 0 threw Error: 0 inside",
    "5 kinds of failure, by message and line of code",
    "  3 runs check failed, seed 11 the first, at a.mjs:22:11",
    "    check threw Error: permits must be back",
    "    1 !== 2",
    "  2 runs threw, seed 8 the first, at a.mjs:15:9",
    "    agent 0 threw Error: 0 inside",
    "  1 run threw, seed 10 the first, at a.mjs:16:9",
    "    agent 0 threw Error: 7 inside",
    "  1 run deadlock, seed 14 the first, at b.mjs:3:1 and b.mjs:4:1",
    "    an agent waits at BELL",
    "  1 run limit met, seed 15 the first",
    "    agent 1 spins at c.mjs:5:18: it goes on",
  ];
  assert.deepEqual(linesOf(outcomes).slice(0, expected.length), expected);
  assert.deepEqual(linesOf(outcomes.toReversed()).slice(0, expected.length), expected);
});

test("what the first failing run says alone isn't said twice, and what it doesn't say is said", () => {
  const failure = { message: ["agent 0 threw Error: one"], sources: [] };
  const alone = linesOf([thrown(3, failure), thrown(4, failure)]);
  assert.ok(!alone.some((line) => line.includes("kind")), alone.join("\n"));
  const behind = linesOf([outcome(2, { ending: "race" }), thrown(3, failure)]);
  assert.ok(behind.includes("1 kind of failure, by message and line of code"));
});

test("a run that ended as `failed` threw, or was stopped", () => {
  const promise = outcome(1, { ending: "failed", detail: "agent 0 goes on later, by a promise" });
  const init = outcome(2, { ending: "failed", detail: "init threw Error: no" });
  const lines = linesOf([promise, init]);
  assert.deepEqual(lines.slice(0, 2), ["2 of 2 runs failed: 2 threw or stopped", "first failing seed: 1, stopped"]);
  assert.ok(lines.includes("  2 runs threw or stopped, seed 1 the first: 01"));
  assert.equal(linesOf([init])[0], "1 of 1 run failed: 1 threw");
});

test("final states have names where there are some", () => {
  const lines = linesOf([outcome(1, { named: "LOCK 0, COUNT 8" }), outcome(2, { shown: ["02"], named: "LOCK 2" })]);
  assert.deepEqual(lines.slice(1, 4), [
    "2 final states: how it ended, and the values",
    "  1 run finished, seed 1 the first: LOCK 0, COUNT 8",
    "  1 run finished, seed 2 the first: LOCK 2",
  ]);
});

test("any number of kinds of failures take a bounded room, and what is left out is counted", () => {
  const summary = new Summary(SEEN);
  const count = 3 * MOST_KEYS;
  for (let seed = 1; seed <= count; seed += 1) {
    summary.add(thrown(seed, { message: ["agent 0 threw Error"], sources: [`a.mjs:${seed}:1`] }));
    assert.ok(summary.failures.entries.size <= 2 * MOST_KEYS);
  }
  const { listed, others } = summary.data().failures;
  assert.deepEqual([listed.length, others], [MOST_KEYS, count - MOST_KEYS]);
  assert.ok(summary.text().includes("\nover 4,096 kinds of failure, by message and line of code\n"));
  assert.ok(summary.text().includes("\n  and those of 8,192 runs besides\n"));
});

/** Made-up outcomes of all kinds: which one a seed has is drawn from it. */
function mixed(seed) {
  const draw = (seed * 7_919) % 101;
  const early = { onlyIf: "only if 5 s pass" };
  if (draw < 3) return outcome(seed, { ending: "deadlock", detail: `seed ${seed}`, shown: [`d${draw}`], ...early });
  if (draw > 90) return thrown(seed, { message: [`agent 0 threw Error: ${seed}`], sources: [`a.mjs:${draw % 3}:1`] });
  if (draw < 9) return outcome(seed, { ending: "limit", fails: false, noScript: `why ${draw % 2}` });
  const races = draw < 40 ? [race(`a.mjs:${draw % 5}:1`, "b.mjs:1:1"), race("c.mjs:1:1", "d.mjs:1:1")] : [];
  const shown = [`f${draw % 17}`];
  const onlyByTime = [{ agent: 0, line: "a.mjs:1:1", milliseconds: 5, block: 0, byte: draw }];
  const timed = draw < 70 ? {} : { onlyByTime, served: [{ block: 0, byte: 4 * (draw % 3) }] };
  const parts = { shown, races, calls: draw, scriptHolds: "touched", ...timed };
  return outcome(seed, { ending: draw < 40 ? "race" : "finished", ...parts });
}

test("summaries that are joined are the summary of all runs, in whatever order", () => {
  const parts = Array.from({ length: 5 }, () => new Summary(SEEN));
  const whole = new Summary(SEEN);
  for (let seed = 1; seed <= 2_000; seed += 1) {
    const one = mixed(seed);
    for (const summary of [whole, parts[(seed * 31) % 5]]) summary.add({ ...one, checked: seed % 9 === 0 });
  }
  for (const order of [[0, 1, 2, 3, 4], [3, 0, 4, 2, 1]]) {
    const joined = new Summary(SEEN);
    for (const at of order) joined.join(JSON.parse(JSON.stringify(parts[at].data())));
    assert.deepEqual(joined.data(), whole.data());
    assert.equal(joined.text(), whole.text());
  }
});

test("joined summaries report all checks in one line, with each kind of simulator", () => {
  const kinds = ["module 123", "program sabsim 0.1.0", undefined];
  const parts = kinds.map((checkedBy) => new Summary({ ...SEEN, checkedBy }));
  parts.forEach((summary, at) => summary.add(outcome(at, { checked: at < 2 })));
  const joined = new Summary({ ...SEEN, checkedBy: undefined });
  for (const summary of parts.slice(0, 2)) joined.join(summary.data());
  const both = "the simulator (WebAssembly module and native program)";
  const how = `replayed and judged by ${both}, except exact repeats: it agrees with the recorder`;
  assert.ok(joined.text().split("\n").includes(`every run was ${how}`));
  joined.join(parts[2].data());
  assert.ok(joined.text().split("\n").includes(`2 of 3 runs were ${how}`));
  const versions = ["module 123", "program sabsim 0.1.0"];
  assert.deepEqual(joined.data().sabsim, { asked: true, versions, checked: 2, judges: true });
});

test("only the module isn't asked about runs that are the same again, and one run is no repeat", () => {
  const saying = (checkedBy, count) => {
    const summary = new Summary({ ...SEEN, checkedBy });
    for (let seed = 1; seed <= count; seed += 1) summary.add(outcome(seed, { checked: true }));
    return summary.text().split("\n").find((line) => line.startsWith("every run was"));
  };
  const judged = "every run was replayed and judged by the simulator";
  const agrees = "it agrees with the recorder";
  assert.equal(saying("module 123", 2), `${judged} (WebAssembly module), except exact repeats: ${agrees}`);
  assert.equal(saying("module 123", 1), `${judged} (WebAssembly module): ${agrees}`);
  assert.equal(saying("program sabsim 0.1.0", 2), `${judged} (native program): ${agrees}`);
});

test("of runs whose ordinary accesses aren't watched it isn't said that they were judged", () => {
  const lines = linesOf(seeds(1, 2), { ordinary: "store", checked: 2 });
  const which = "every run was replayed by the simulator (WebAssembly module), except exact repeats";
  assert.ok(lines.includes(`${which}: it agrees with the recorder`));
});

/** A tally of keys, with three seeds for each. @param {number[]} keys @param {number} most */
function tallied(keys, most) {
  const tally = new Tally(most);
  for (const key of keys) for (const seed of [0, 1, 2]) tally.add(`key ${key % 1_000}`, key * 10 + seed);
  return tally;
}

test("a tally keeps a certain number of keys, the same ones in whatever order and parts they come", () => {
  const keys = Array.from({ length: 3_000 }, (_, at) => (at * 1_237) % 3_000);
  const whole = tallied(keys, 100);
  // Of 1,000 keys each has the runs of three numbers; those are kept that are first by their spelling.
  const spelled = Array.from({ length: 1_000 }, (_, key) => `key ${key}`).sort().slice(0, 100);
  assert.deepEqual(whole.sorted().map(({ key }) => key).sort(), spelled);
  for (const { key, runs, first } of whole.sorted()) assert.deepEqual([runs, first], [9, Number(key.slice(4)) * 10]);
  assert.deepEqual([whole.others, whole.counted], [9_000 - 900, 9_000]);
  assert.deepEqual(tallied(keys.toReversed(), 100).sorted(), whole.sorted());
  const joined = new Tally(100);
  for (const from of [2_000, 0, 1_000]) {
    const part = tallied(keys.slice(from, from + 1_000), 100);
    joined.join(part.sorted(), part.others);
  }
  assert.deepEqual([joined.sorted(), joined.others], [whole.sorted(), whole.others]);
});

test("the states of any number of seeds take a bounded room, and what is left out is counted", () => {
  const summary = new Summary(SEEN);
  const count = 3 * MOST_KEYS;
  for (let seed = 1; seed <= count; seed += 1) {
    summary.add(outcome(seed, { shown: [createHash("sha256").update(String(seed)).digest("hex")] }));
    assert.ok(summary.states.passing.entries.size <= 2 * MOST_KEYS);
  }
  const { listed, others } = summary.data().states.passing;
  assert.deepEqual([listed.length, others], [MOST_KEYS, count - MOST_KEYS]);
  const lines = summary.text().split("\n");
  assert.equal(lines[1], "over 4,096 final states: how it ended, and the bytes");
  assert.deepEqual(lines.slice(10, 12), ["  and 4,088 more", "  and those of 8,192 runs besides"]);
});
