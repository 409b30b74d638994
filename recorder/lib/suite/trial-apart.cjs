// A trial in a process of its own, for code that can't load ES modules: that of jest without --experimental-vm-modules,
// and of node before 20.19.
"use strict";

const { fork } = require("node:child_process");
const { join } = require("node:path");
const { serialize } = require("node:v8");
const { jobWords } = require("../seeds/start-job.cjs");
const { RunFailed, stackOf } = require("./run-failed.cjs");

/** @typedef {import("../library/caller.cjs").Caller} Caller */

/**
 * @typedef {object} Reply how a trial has ended
 * @property {"passed" | "failed" | "refused" | "defect"} end
 * @property {string} text what is to be said about it
 */

const PROGRAM = join(__dirname, "trial-process.mjs");
const ELSEWHERE = "`require` has loaded `sabsim/test`, so the recorder runs in a process of its own";
const INSTEAD = "load `sabsim/test` as an ES module (jest: with --experimental-vm-modules)";

/** Options that another process can't take, and what can be done instead. */
const OF_THIS_PROCESS = new Map([
  ["init", "Export it from the agents' module"],
  ["check", "Export it from the agents' module"],
  ["signal", "Leave it out"],
]);

/** @param {unknown} value @returns {boolean} */
function canBeSent(value) {
  try {
    serialize(value);
    return true;
  } catch {
    return false;
  }
}

/**
 * @param {string} name of an option
 * @param {unknown} value
 * @returns {string[]} why it can't be sent
 */
function faultOf(name, value) {
  const instead = OF_THIS_PROCESS.get(name);
  if (instead === undefined) return canBeSent(value) ? [] : [`\`${name}\` can't be sent: ${ELSEWHERE}`];
  if (value === undefined) return [];
  return [`\`${name}\` can't be given: ${ELSEWHERE}. ${instead}, or ${INSTEAD}`];
}

/** @param {any} value @returns {unknown} the value as it is sent: the text of a URL */
const sentForm = (value) => (typeof value?.href === "string" ? value.href : value);

/** @param {string} text @returns {Reply} */
const refused = (text) => ({ end: "refused", text });

/**
 * Asks a process for a trial.
 * @param {Record<string, unknown>} options
 * @param {Caller} caller
 * @returns {Promise<Reply>} when the process has ended
 */
function replyTo(options, { folder, place, name }) {
  // jest's tests have an environment of their own.
  const { execArgv, env } = process;
  const words = jobWords(execArgv);
  const stdio = ["ignore", "inherit", "inherit", "ipc"];
  const child = fork(PROGRAM, { stdio, execArgv: words, env, serialization: "advanced", windowsHide: true });
  // If it can't be sent, the process has ended or never begun.
  child.send({ options, folder: folder(), place, name }, () => {});
  return new Promise((done) => {
    /** @type {Reply | undefined} */
    let reply;
    child.once("message", (message) => {
      reply = message;
    });
    child.once("error", (error) => done(refused(`the recorder's process can't be started: ${error.message}`)));
    child.once("exit", (code, signal) => {
      const why = signal ?? `status ${code}`;
      const end = () => done(reply ?? refused(`the recorder's process ended by itself (${why})`));
      // What it has sent may not have been taken.
      if (child.connected) child.once("disconnect", end);
      else end();
    });
  });
}

/**
 * Makes runs as `tried` does, in a process of its own.
 * @param {object | undefined} given
 * @param {Caller} caller
 * @returns {Promise<string>} what is to be said if none failed; fails with RunFailed if one did
 */
async function triedApart(given, caller) {
  const options = Object.fromEntries(Object.entries(given ?? {}).map(([name, value]) => [name, sentForm(value)]));
  const [fault] = Object.entries(options).flatMap(([name, value]) => faultOf(name, value));
  const { end, text } = fault === undefined ? await replyTo(options, caller) : refused(fault);
  if (end === "passed") return text;
  if (end === "failed") throw new RunFailed(text, caller.place);
  const error = new Error(text);
  if (end === "refused") error.stack = stackOf(error, caller.place);
  throw error;
}

module.exports = { triedApart };
