// Random programs with ordinary accesses of all sizes, recorded: the recorder reports the races that a second judge
// finds in the traces, and the traces say about each call what sabsim says.

import assert from "node:assert/strict";
import { readFileSync } from "node:fs";
import { test } from "node:test";
import { moduleUrl } from "../../lib/library/module-url.mjs";
import { record } from "../../lib/library/record-runs.mjs";
import { Job } from "../../lib/seeds/job.mjs";
import { Runs, outcomesOf } from "../../lib/seeds/runs.mjs";
import { CONSTRUCTORS, KINDS } from "../../script/kinds.mjs";
import { agentsPath } from "../helpers/common.mjs";
import { CHECKER } from "../helpers/needs.mjs";
import { seedsTried } from "../helpers/seeds-tried.mjs";
import { eventsOfTrace, racingLines } from "../helpers/slow-judge.mjs";

/** How many random programs of each way are tried. */
const PROGRAMS = seedsTried(100);

/**
 * How the agents keep out of each other's way, what else their runs are recorded with, and from what part to what part
 * of the runs race: neither hardly any nor nearly all, except when no agent keeps out of another's way.
 */
const WAYS = [
  { way: "wild", options: {}, racy: [0.8, 1] },
  { way: "words", options: {}, racy: [0.3, 0.8] },
  { way: "locked", options: {}, racy: [0.06, 0.4] },
  // An agent mostly goes on for long, so that they come by the places one after the other.
  { way: "passing", options: { strategy: "switch:0.02" }, racy: [0.3, 0.8] },
];

/**
 * The outcomes of random programs, in the order of their seeds.
 * @param {string} way
 * @param {object} options
 * @returns {Promise<import("../../lib/run/outcome.mjs").Outcome[]>}
 */
async function recorded(way, options) {
  const outcomes = [];
  const all = {
    module: moduleUrl(agentsPath("random-ordinary")), args: [way], first: 1, last: PROGRAMS, jobs: 1, checkEvery: 1,
    sabsim: CHECKER, maxMoves: 100_000, seconds: 10, fresh: false, ordinary: "watch", trace: true, ...options,
  };
  for await (const outcome of outcomesOf(new Runs(all, { job: new Job() }))) outcomes.push(outcome);
  assert.equal(outcomes.filter(({ checked }) => checked).length, all.checkEvery * outcomes.length);
  return outcomes;
}

/** The outcomes of each way, without their traces. @type {Map<string, ReturnType<typeof withoutTrace>[]>} */
const recordedByWay = new Map();

/** How many runs of each way are made once more without a trace. */
const FEW = Math.min(50, PROGRAMS);

/** How many runs of wild agents are made once more in workers that are started anew. */
const ANEW = 5;

/** The traces of the first wild runs. @type {string[] | undefined} undefined: they weren't recorded */
let firstTraces;

/**
 * What is the same of a run whether its trace is wanted or not.
 * @param {import("../../lib/run/outcome.mjs").Outcome} of
 */
const withoutTrace = ({ seed, ending, detail, moves, state, races }) => ({ seed, ending, detail, moves, state, races });

/** The events of a trace. @returns {import("../helpers/slow-judge.mjs").Event[]} */
function eventsOf(trace) {
  const events = eventsOfTrace(trace);
  events.forEach(({ event }, index) => assert.equal(event, index));
  return events;
}

/** What a trace says about calls, in one line each. */
function callLines(events) {
  return events.filter(({ atomic, waiters }) => atomic || waiters).map((event) => {
    const { agent, call, does, block, byte, size, read, write, waiters } = event;
    return [agent, call, does, block, byte, size, read, write, waiters].join(" ");
  });
}

/** The same lines by a script, and by what sabsim has replayed of it. */
function callLinesOfReport(script, report) {
  const { views, agents } = JSON.parse(script);
  const isOwn = ([, view]) => !view.startsWith("ordinary");
  const done = report.matchAll(/^\d+ (\d+) (\d+) (act|wait|leave) ?(.*)$/gm);
  return [...done].flatMap(([, agent, number, deed, answer]) => {
    const { calls } = agents[agent];
    const call = calls[number];
    if (!isOwn(call)) return [];
    const [name, viewName, index, expected] = call;
    const { kind, block, offset } = views.find((view) => view.name === viewName);
    const Kind = CONSTRUCTORS[KINDS.indexOf(kind)];
    const size = Kind.BYTES_PER_ELEMENT;
    const does = deed === "leave" ? { ok: "leave", "timed-out": "time-up" }[answer] : name;
    const place = [block, offset + index * size, size];
    const own = calls.slice(0, number).filter(isOwn).length;
    return [[agent, own, does, ...place, ...effectOf(does, Kind, expected, answer)].join(" ")];
  });
}

/** Whether a call reads, whether it writes, and whether it passes the critical section of a place's waiters. */
function effectOf(does, Kind, expected, answer) {
  if (does === "load") return [true, false, false];
  if (does === "store") return [false, true, false];
  if (does === "wait") return [true, false, true];
  if (["notify", "leave", "time-up"].includes(does)) return [false, false, true];
  if (does !== "compareExchange") return [true, true, false];
  const isBig = answer.endsWith("n");
  const element = Kind.of(isBig ? BigInt(expected) : expected)[0];
  return [true, `${element}${isBig ? "n" : ""}` === answer, false];
}

for (const { way, options, racy: [least, most] } of WAYS) {
  test(`clocks and the search agree on ${PROGRAMS} random programs: ${way}`, async () => {
    let racy = 0;
    const outcomes = await recorded(way, options);
    recordedByWay.set(way, outcomes.map(withoutTrace));
    if (way === "wild") firstTraces = outcomes.slice(0, ANEW).map(({ trace }) => trace);
    for (const { seed, ending, races, trace, script, report } of outcomes) {
      const events = eventsOf(trace);
      const expected = racingLines(events);
      assert.deepEqual(races.map(({ lines }) => lines.join(" and ")).sort(), expected, `seed ${seed}`);
      assert.ok([expected.length > 0 ? "race" : "finished", "deadlock"].includes(ending), `seed ${seed}: ${ending}`);
      assert.deepEqual(callLines(events), callLinesOfReport(script, report), `seed ${seed}`);
      racy += expected.length > 0 ? 1 : 0;
    }
    const part = racy / PROGRAMS;
    assert.ok(least < part && part < most, `${racy} of them race`);
  });
}

test("runs without a trace, which keep each access once, have the same outcomes", async () => {
  for (const { way, options } of WAYS) {
    const few = { ...options, last: FEW, checkEvery: 0 };
    // The test before has made these runs, unless this one runs alone.
    const traced = recordedByWay.get(way)?.slice(0, FEW) ?? (await recorded(way, few)).map(withoutTrace);
    const untraced = await recorded(way, { ...few, trace: false });
    assert.deepEqual(untraced.map(withoutTrace), traced, way);
  }
});

test("workers that are started anew go on with the lines of code of those before", async () => {
  const few = { last: ANEW, checkEvery: 0 };
  const traces = async (options) => (await recorded("wild", { ...few, ...options })).map(({ trace }) => trace);
  // The first test has made the runs in kept workers, unless this one runs alone.
  assert.deepEqual(await traces({ fresh: true }), firstTraces ?? (await traces({ fresh: false })));
});

const NAMED = ["element", "view", "find", "iteration", "nested", "limited"];
const NAMED_LINES = readFileSync(agentsPath("named-lines"), "utf8").split("\n");

/** The sources of the ordinary reads of a run of the agents that make one. @param {string} way */
async function sourcesOf(way) {
  const options = { module: agentsPath("named-lines"), args: [way], agents: 1, buffers: [4, 4], sabsim: false };
  const { ending, detail, trace } = await record({ ...options, trace: true });
  assert.equal(ending, "finished", detail);
  const events = trace.trimEnd().split("\n").map((line) => JSON.parse(line));
  return events.filter(({ does }) => does === "read").map(({ source }) => source);
}

for (const way of NAMED) {
  test(`the trace has the line of code of a read: ${way}`, async () => {
    const sources = await sourcesOf(way);
    assert.ok(sources.length > 0);
    const first = NAMED_LINES.findIndex((line) => line.startsWith(`  ${way}`));
    const last = way === "limited" ? first + 3 : first;
    for (const source of sources) {
      const [, line] = /named-lines\.mjs:(\d+):\d+$/.exec(source);
      assert.ok(first < line && line <= last + 1, `${source} isn't from line ${first + 1} to ${last + 1}`);
    }
  });
}

test("if the agents' code has frozen Error, the trace has no line of code, and their code goes on", async () => {
  assert.deepEqual(await sourcesOf("frozen"), [null]);
});
