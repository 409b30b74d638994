// Who judges a run's accesses: sabsim, the recorder's own detector, and a slow judge that is written from the
// definitions alone. On rows by hand and on random traces all say the same. `known.test.mjs` has the runs of
// known programs judged.

import assert from "node:assert/strict";
import { fork } from "node:child_process";
import { readFileSync, readdirSync } from "node:fs";
import { describe, it, test } from "node:test";
import { detected, detectedPairs } from "../helpers/detected.mjs";
import { pathOf } from "../helpers/programs.mjs";
import { seedsTo } from "../helpers/recorded.mjs";
import { seedsTried } from "../helpers/seeds-tried.mjs";
import { eventsOfTrace, slowJudge } from "../helpers/slow-judge.mjs";
import { jsonText, plainText, statusOf } from "../helpers/verdict-texts.mjs";
import { simulated } from "../helpers/simulate.mjs";

const ROWS = new URL("../judge-rows/", import.meta.url);
const LEAST_ROWS = 20;
const RANDOM = seedsTried(2_000);

// Each process has the judges' code compiled anew, and that takes longer than to judge some thousand short traces.
const PROCESSES = 1;

/** The names of a folder's files with an ending, without it. @param {URL} folder @param {string} ending */
const namesIn = (folder, ending) =>
  readdirSync(folder).filter((name) => name.endsWith(ending)).map((name) => name.slice(0, -ending.length));

/** What `sabsim judge --trace` says. @param {string} trace @param {string[]} [words] */
const judgedBySabsim = (trace, words = []) => simulated(["judge", "--trace", ...words], trace);

/** Sabsim says about a trace what it must, in words or as JSON. */
function demandOfSabsim(trace, words, expected) {
  assert.deepEqual(judgedBySabsim(trace, words), { errors: "", ...expected });
}

describe("rows by hand", () => {
  const names = namesIn(ROWS, ".jsonl");
  const read = (name) => readFileSync(new URL(name, ROWS), "utf8");

  it("are many, each with its verdict", () => {
    assert.ok(names.length >= LEAST_ROWS);
    assert.deepEqual(namesIn(ROWS, ".verdict"), names);
  });

  for (const name of names) {
    const trace = read(`${name}.jsonl`);
    const verdict = read(`${name}.verdict`);
    const judged = slowJudge(eventsOfTrace(trace));
    it(`${name}, by the slow judge`, () => assert.equal(plainText(judged), verdict));
    it(`${name}, by the recorder's detector`, () => {
      assert.deepEqual(detected(eventsOfTrace(trace)), detectedPairs(judged));
    });
    it(`${name}, by the simulator`, () => {
      const status = statusOf(judged);
      demandOfSabsim(trace, [], { output: verdict, status });
      demandOfSabsim(trace, ["--format", "plain"], { output: verdict, status });
      demandOfSabsim(trace, ["--format", "json"], { output: jsonText(judged), status });
    });
  }
});

test("a line that is no event is refused by its number", () => {
  const trace = readFileSync(new URL("mutex.jsonl", ROWS), "utf8");
  const lines = trace.split("\n");
  for (const line of ['{"event":1}', "[]"]) {
    const { status, output, errors } = judgedBySabsim(lines.with(1, line).join("\n"));
    assert.deepEqual([status, output, errors], [1, "", "sabsim: 10 BadShape: line 2\n"]);
  }
});

/** What a process finds of the random traces from a seed on. @param {number} first */
const foundFrom = (first) => new Promise((done) => {
  const words = [first, RANDOM, PROCESSES].map(String);
  const child = fork(pathOf("recorder/tests/helpers/judge-process.mjs"), words);
  let found = { seeds: 0, racy: 0, differing: [] };
  child.on("message", (message) => {
    found = message;
  });
  child.on("exit", () => done(found));
});

test(`sabsim, the recorder's detector and the slow judge agree on ${RANDOM} random traces`, async () => {
  const found = await Promise.all(seedsTo(PROCESSES).map(foundFrom));
  const [first] = found.flatMap(({ differing }) => differing).sort((one, other) => one.seed - other.seed);
  assert.deepEqual(first?.said, first?.expected, `seed ${first?.seed}`);
  const sum = (name) => found.reduce((all, { [name]: part }) => all + part, 0);
  assert.equal(sum("seeds"), RANDOM);
  assert.ok(sum("racy") > RANDOM / 4 && sum("racy") < RANDOM * 3 / 4, `${sum("racy")} of them are racy`);
});
