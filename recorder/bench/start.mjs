#!/usr/bin/env node
// How long the command line takes to make one run, beside a bare node with as many workers. The bare one is a process
// that starts three workers that do nothing. They are started in turns, so that other work on the machine slows both.
//
//     node recorder/bench/start.mjs [--turns N] [--record FILE] [--agents FILE]

import { spawnSync } from "node:child_process";
import { fileURLToPath } from "node:url";
import { parseArgs } from "node:util";

const RECORDER = new URL("../", import.meta.url);
const RECORD = fileURLToPath(new URL("record.mjs", RECORDER));
const AGENTS = fileURLToPath(new URL("examples/mutex-naive.agents.mjs", RECORDER));
const BARE = `const { Worker } = require("node:worker_threads");
  for (const _ of "123") new Worker("", { eval: true });`;

// Each node process takes 60 ms or more to read such certificates. The command line starts two processes, and the bare
// node is one. So that time would make the command line look better.
const { NODE_EXTRA_CA_CERTS: _, ...env } = process.env;

const STDIO = ["ignore", "ignore", "pipe"];

/** @param {string[]} words @returns {number} how many milliseconds node takes with these words */
function millisecondsOf(words) {
  const begun = performance.now();
  const { status, stderr } = spawnSync(process.execPath, words, { encoding: "utf8", stdio: STDIO, env });
  if (status !== 0) throw new Error(`node ${words[0]} ended with status ${status}: ${stderr}`);
  return performance.now() - begun;
}

/** @param {number[]} list @returns {number} */
const median = (list) => [...list].sort((one, other) => one - other)[Math.floor(list.length / 2)];

/**
 * @param {{ turns: number, record: string, agents: string }} asked
 * @returns {string} a line for each, and how many times as long the command line takes
 */
function measured({ turns, record, agents }) {
  const cases = { bare: ["--eval", BARE], record: [record, agents, "--seeds", "1"] };
  /** @type {Record<string, number[]>} */
  const taken = { bare: [], record: [] };
  for (let turn = 0; turn < turns; turn += 1) {
    for (const [name, words] of Object.entries(cases)) taken[name].push(millisecondsOf(words));
  }
  const lines = Object.entries(taken).map(([name, list]) =>
    `${name}: median ${median(list).toFixed(0)} ms, least ${Math.min(...list).toFixed(0)} ms, of ${turns} turns`);
  const times = median(taken.record) / median(taken.bare);
  return [...lines, `record takes ${times.toFixed(2)} times as long as bare`, ""].join("\n");
}

const { turns, record, agents } = parseArgs({
  options: {
    turns: { type: "string", default: "9" },
    record: { type: "string", default: RECORD },
    agents: { type: "string", default: AGENTS },
  },
}).values;
process.stdout.write(measured({ turns: Number(turns), record, agents }));
