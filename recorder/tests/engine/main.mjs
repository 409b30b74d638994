#!/usr/bin/env node
// A second opinion by a real engine: `node recorder/tests/engine/main.mjs script.json` makes a script's moves one after
// the other in real threads, with the engine's own `Atomics` on real SharedArrayBuffers, and writes the report that
// `sabsim replay` would write. So this shows nothing where the engine agrees:
//
//     diff <(sabsim replay < script.json) <(node recorder/tests/engine/main.mjs script.json)
//
// Not all lines are the engine's answers: replay.mjs says which are the script's own, and standard error counts
// each kind of these. This program isn't proved.

import { createReadStream } from "node:fs";
import { Crew, EngineFault } from "./crew.mjs";
import { replay } from "./replay.mjs";
import { reportText, summary } from "./report.mjs";
import { readScript, ScriptFault } from "./script.mjs";
import { SCRIPT_LIMITS } from "../../script/limits.mjs";

const HELP = `\
Makes a script's moves in real threads with this engine's own Atomics, and writes the report as sabsim replay does.

Usage: node recorder/tests/engine/main.mjs [FILE] > report

A script is read from FILE, or from standard input where that is - or isn't given (docs/FORMATS.md has its form), and
its report is written to standard output. Each act, wait and leave is the engine's own, on real SharedArrayBuffers, and
so is each "stuck waiting": the engine still holds that agent. Not the engine's are the other lines, and they are
counted on standard error:

- "begin" and "return", since an engine doesn't show them;
- "stuck done", "stuck not-waiting" and "stuck endless", since an engine can't be asked to make these moves;
- the TypeError of a wait whose agent can't block ("block": false), where no other check fails: a thread of node can
  always block. The checks that come before are the engine's.

The numbers of timeouts aren't used: a wait whose time is up by the schedule is given a timeout that ends just then, and
any other none.

A script that isn't one is refused with one line; which fault it has is for sabsim replay to say. (1.0 and 1e2 are
taken for whole numbers here.)

Status: 0 done; 1 the script was refused; 2 the command line was; 3 the script couldn't be read, or the report couldn't
be written; 4 the engine did what no engine may, or a thread ended.
`;

const STATUS = { done: 0, script: 1, commandLine: 2, device: 3, engine: 4 };
const STANDARD_INPUT = "-";

/** Where the script is read from can't be read. */
class ReadFailed extends Error {}

/** @param {unknown} error of node's @returns {string} */
const messageOf = (error) => /** @type {Error} */ (error).message;

/**
 * Whether a file or a stream has failed.
 * @param {unknown} error
 */
const isOfDevice = (error) => error instanceof ReadFailed || (error instanceof Error && error.code !== undefined);

/**
 * Ends with a line on standard error.
 * @param {number} status
 * @param {string} message
 */
function fail(status, message) {
  process.stderr.write(`engine: ${message}\n`);
  return status;
}

/**
 * Reads a file or standard input, but of one without an end no more than is too much.
 * @param {string} name
 * @returns {Promise<Buffer>}
 * @throws {ReadFailed}
 */
async function readInput(name) {
  const parts = [];
  let length = 0;
  try {
    for await (const part of name === STANDARD_INPUT ? process.stdin : createReadStream(name)) {
      parts.push(part);
      length += part.length;
      if (length > SCRIPT_LIMITS.text) break;
    }
  } catch (error) {
    throw new ReadFailed(`${name === STANDARD_INPUT ? "standard input" : name} can't be read: ${messageOf(error)}`);
  }
  return Buffer.concat(parts);
}

/** @param {string} text @returns {Promise<void>} */
function write(text) {
  return new Promise((resolve, reject) => {
    process.stdout.once("error", reject);
    process.stdout.write(text, (error) => (error ? reject(error) : resolve()));
  });
}

/**
 * Replays the script of a file or of standard input. Returns the status to end with.
 * @param {string} name
 * @param {Crew} crew
 */
async function answerScript(name, crew) {
  const script = readScript(await readInput(name));
  const outcome = await replay(script, crew);
  await write(reportText(script, outcome));
  process.stderr.write(`engine: node ${process.version}, V8 ${process.versions.v8}: ${summary(outcome)}\n`);
  return STATUS.done;
}

/**
 * Why a command line can't be.
 * @param {string[]} words
 * @returns {string | undefined} undefined where it can
 */
function whyRefused(words) {
  const option = words.find((word) => word.startsWith("-") && word !== STANDARD_INPUT);
  if (option !== undefined) return `${option} is no option`;
  if (words.length > 1) return "there may be one script only";
  return words[0] === "" ? "the script's file has no name" : undefined;
}

/** @param {string[]} words */
async function main(words) {
  if (words[0] === "--help") {
    await write(HELP);
    return STATUS.done;
  }
  const refused = whyRefused(words);
  if (refused !== undefined) return fail(STATUS.commandLine, `${refused}; --help shows how to use this`);
  const crew = new Crew();
  try {
    return await answerScript(words[0] ?? STANDARD_INPUT, crew);
  } finally {
    await crew.end();
  }
}

try {
  process.exitCode = await main(process.argv.slice(2));
} catch (error) {
  if (error instanceof ScriptFault) process.exitCode = fail(STATUS.script, error.message);
  else if (error instanceof EngineFault) process.exitCode = fail(STATUS.engine, error.message);
  else if (isOfDevice(error)) process.exitCode = fail(STATUS.device, messageOf(error));
  else throw error;
}
