// What the tests share.

import assert from "node:assert/strict";
import { spawnSync } from "node:child_process";
import { mkdtempSync, readFileSync, readdirSync, rmSync, writeFileSync } from "node:fs";
import { tmpdir } from "node:os";
import { join } from "node:path";
import { after } from "node:test";
import { setTimeout as sleep } from "node:timers/promises";
import { fileURLToPath } from "node:url";
import { Refused, record } from "../../recorder.mjs";
import { NOWHERE } from "./needs.mjs";
import { start } from "./programs.mjs";

/** @typedef {import("node:child_process").StartOptions} StartOptions */
/** @typedef {import("node:child_process").SyncOptions} SyncOptions */
/** @typedef {import("./programs.mjs").Ended} Ended */

/** An environment that chooses a program which isn't there. */
export const WITHOUT_SABSIM = Object.freeze({ ...process.env, SABSIM: NOWHERE });

/** @param {string} name of a module of agents */
export const agentsPath = (name) => fileURLToPath(new URL(`../agents/${name}.mjs`, import.meta.url));

/** The command line's program. */
export const RECORD = fileURLToPath(new URL("../../record.mjs", import.meta.url));

/**
 * Runs node in a process of its own, beside others.
 * @param {string[]} words
 * @param {{ input?: string } & StartOptions} options its standard input, and how it is started
 * @returns {Promise<Ended>}
 */
export async function nodeThere(words, { input, ...options } = {}) {
  const { status, stdout, stderr } = await start(process.execPath, words, input, options).ended;
  return { status, stdout, stderr };
}

/**
 * Runs the command line so.
 * @param {string[]} words
 * @param {{ input?: string } & StartOptions} [options]
 */
export const commandThere = (words, options) => nodeThere([RECORD, ...words], options);

/**
 * Runs node to its end, while nothing else goes on here.
 * @param {string[]} words
 * @param {Partial<SyncOptions>} [options]
 * @returns {Ended}
 */
export function nodeNow(words, options = {}) {
  const { status, stdout, stderr } = spawnSync(process.execPath, words, { encoding: "utf8", ...options });
  return { status, stdout, stderr };
}

/**
 * Runs the command line so.
 * @param {string[]} words
 * @param {Partial<SyncOptions>} [options]
 */
export const commandNow = (words, options) => nodeNow([RECORD, ...words], options);

/**
 * What node has printed as JSON, without an error.
 * @param {Ended} ended
 */
export function jsonOf({ stdout, stderr }) {
  assert.equal(stderr, "");
  return JSON.parse(stdout);
}

/** @typedef {import("../../options.cjs").OfModule} OfModule */
/**
 * @typedef {import("../../options.cjs").RunOptions & import("../../options.cjs").OneRun &
 * Partial<Omit<OfModule, "module">>} CaseOptions those of `record`, except the module
 */

/**
 * Records one of the cases of `agents/cases.mjs`; without a check unless it is asked for. With `everywhere` no pilots
 * are made first, which would take twice as many workers.
 * @param {string} name
 * @param {CaseOptions} [options]
 */
export function recordCase(name, options = {}) {
  const { agents = 2, buffers = [12], args = [], ...rest } = options;
  return record({
    module: agentsPath("cases"), args: [name, ...args], agents, buffers, sabsim: false, seconds: 5, everywhere: true,
    ...rest,
  });
}

/**
 * A folder that is gone after the test, or without one after the tests of the file or of the suite.
 * @param {{ after: (act: () => void) => void }} [test]
 */
export function temporaryFolder(test = { after }) {
  const folder = mkdtempSync(join(tmpdir(), "recorder-"));
  test.after(() => rmSync(folder, { recursive: true, force: true }));
  return folder;
}

/**
 * Writes a module of agents.
 * @param {string} folder
 * @param {string} body of the agent
 */
export function agentsIn(folder, body) {
  const path = join(folder, "agents.mjs");
  writeFileSync(path, `export default function agent({ buffers, agent, agents, args }) {\n${body}\n}\n`);
  return path;
}

/**
 * Writes a file.
 * @param {string} folder
 * @param {string} name
 * @param {string | Uint8Array} text
 * @returns {string} its path
 */
export function fileIn(folder, name, text) {
  const path = join(folder, name);
  writeFileSync(path, text);
  return path;
}

/**
 * Writes a whole module of agents, into a folder of its own.
 * @param {import("node:test").TestContext} test
 * @param {string} text
 * @returns {string} its path
 */
export function moduleOf(test, text) {
  const path = join(temporaryFolder(test), "agents.mjs");
  writeFileSync(path, text);
  return path;
}

/**
 * Writes a program of the shell's.
 * @param {string} folder
 * @param {string} code
 * @returns {string} its path
 */
export function shellProgram(folder, code) {
  const path = join(folder, "program");
  writeFileSync(path, `#!/bin/sh\n${code}\n`, { mode: 0o755 });
  return path;
}

/** What a program does that always reports one begin, which no run has alone. */
export const LIES = "cat > /dev/null\necho '0 0 0 begin'";

/** Two agents without pilots take half as many workers. */
export const FEW_WORKERS = Object.freeze({ agents: 2, everywhere: true });

/** A module of two agents, each of which adds 1. */
export const COUNTS = `export const setup = { agents: 2, buffers: [4] };
export default ({ buffers }) => void Atomics.add(new Int32Array(buffers[0]), 0, 1);
`;

/**
 * What `assert.throws` demands of a refusal: it says why, in one line.
 * @param {RegExp} why
 * @param {string} [what] was asked for
 * @returns {(error: Error) => boolean}
 */
export const refusedInALine = (why, what = "") => (error) => {
  assert.ok(error instanceof Refused, `${what}: ${error.stack}`);
  assert.match(error.message, why);
  return !error.message.includes("\n");
};

/**
 * The processes whose environment has a word, which all children of a process inherit.
 * @param {string} word
 * @returns {string[]} their numbers
 */
export function processesWith(word) {
  return readdirSync("/proc").filter((name) => /^\d+$/.test(name)).filter((name) => {
    try {
      return readFileSync(`/proc/${name}/environ`, "utf8").includes(word);
    } catch {
      return false;
    }
  });
}

/** A test that waits for longer has failed: what it waits for would never come. */
const MOST_MILLISECONDS = 300_000;

/**
 * Waits until something holds.
 * @param {() => boolean} holds
 * @returns {Promise<boolean>} whether it holds
 */
export async function soon(holds) {
  for (const end = performance.now() + MOST_MILLISECONDS; !holds() && performance.now() < end;) await sleep(20);
  return holds();
}

/**
 * The processes whose environment has a word, and that don't end soon. One that was killed is still there until it gets
 * a processor.
 * @param {string} word
 */
export async function stayingWith(word) {
  await soon(() => processesWith(word).length === 0);
  return processesWith(word);
}
