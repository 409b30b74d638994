// What a command line with --all shows while it works, and how much it keeps.

import assert from "node:assert/strict";
import { readdirSync } from "node:fs";
import { test } from "node:test";
import { pathToFileURL } from "node:url";
import { EverySession } from "../../lib/command/every-session.mjs";
import { obey } from "../../lib/command/main.mjs";
import { commandOptionsOf } from "../../lib/command/options.mjs";
import { Job } from "../../lib/seeds/job.mjs";
import { commandHere, withStreams } from "../helpers/command-here.mjs";
import { COUNTS, moduleOf, temporaryFolder } from "../helpers/common.mjs";

/** One agent counts, and the other throws a text as long as the count. */
const MANY_KINDS = `export const setup = { agents: 2, buffers: [4] };
export default function agent({ buffers, agent: self }) {
  const words = new Int32Array(buffers[0]);
  if (self === 1) throw new Error("a".repeat(Atomics.load(words, 0)));
  for (let at = 0; at < 25; at += 1) Atomics.add(words, 0, 1);
}
`;

/**
 * What a search writes.
 * @param {import("node:test").TestContext} context
 * @param {{ isTerminal: boolean, after: number }} how whether it writes to a terminal; when progress is shown
 */
function written(context, { isTerminal, after }) {
  const module = moduleOf(context, COUNTS);
  const options = /** @type {any} */ (commandOptionsOf([module, "--all", "--seeds", "1..2", "--format", "json"]));
  return withStreams(async () => {
    const { failed } = await new EverySession(options, pathToFileURL(module).href, new Job(), after).run();
    return failed ? 1 : 0;
  }, isTerminal);
}

test("a line of progress is on a terminal's standard error, after a while, and is taken away", async (context) => {
  const shown = await written(context, { isTerminal: true, after: 0 });
  assert.match(shown.stderr, /^(?:\r\x1b\[K\d+ states?, [012] of 2 real runs)+\r\x1b\[K$/);
  assert.equal(JSON.parse(shown.stdout).closed, true);
  const early = await written(context, { isTerminal: true, after: 2 ** 30 });
  assert.equal(early.stderr, "\r\x1b[K");
  const elsewhere = await written(context, { isTerminal: false, after: 0 });
  assert.equal(elsewhere.stderr, "");
});

test("a job that has begun when the command line is read makes the real runs", async (context) => {
  const job = new Job();
  const seeds = [];
  const run = job.run.bind(job);
  job.run = (wanted, ...others) => {
    seeds.push(...wanted.map(({ seed }) => seed));
    return run(wanted, ...others);
  };
  const { status } = await withStreams(() => obey([moduleOf(context, COUNTS), "--all", "--seeds", "1..3"], job));
  assert.deepEqual([status, seeds], [0, [1, 2, 3]]);
});

test("twenty kinds are shown and kept, and the others are counted", async (context) => {
  const out = temporaryFolder(context);
  const words = [moduleOf(context, MANY_KINDS), "--all", "--seeds", "1..1", "--out", out];
  const { status, stdout, stderr } = await commandHere(words);
  assert.equal(status, 1, stderr);
  assert.equal(stdout.match(/^ {2}threw: Error.*; shown by \d+ acts? with /gm)?.length, 8);
  assert.match(stdout, /\n {2}and 18 more\n/);
  const scripts = readdirSync(out).filter((name) => /^all-\d+\.json$/.test(name));
  assert.deepEqual([scripts.length, scripts.includes("all-20.json")], [20, true]);
});
