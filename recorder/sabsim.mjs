#!/usr/bin/env node
// Runs the program sabsim: the one that the package has for this machine, or that the repository has built. Words,
// standard streams and signals are passed on to it, and its status is passed back. If there is no program, the
// simulator in WebAssembly does the same in this process, except races. This launcher isn't proved.

import { spawn } from "node:child_process";
import { closeSync, existsSync, openSync, readFileSync } from "node:fs";
import { constants } from "node:os";
import { fileURLToPath } from "node:url";
import { HERE, MACHINE } from "./lib/processes/platform.cjs";
import { readAll } from "./lib/processes/read-all.mjs";
import { MOST_OF_AUTOMATA, SCRIPT_LIMITS } from "./script/limits.mjs";
import { Simulator } from "./wasm/simulator.mjs";

const NOT_RUN = 2;
// The status of the program if a write failed.
const NOT_WRITTEN = 3;
const MODULE = new URL("./wasm/sabsim.wasm", import.meta.url);

/**
 * How many bytes of an input the simulator needs. It refuses a script, or a file of automata, that has so many,
 * whatever comes behind them.
 */
const MOST_READ = {
  script: SCRIPT_LIMITS.text + 1, trace: Infinity, automata: MOST_OF_AUTOMATA + 1, states: MOST_OF_AUTOMATA + 1,
};

/** Where the program is: in the package, or where the repository builds it. */
const PROGRAMS = [`../program/${MACHINE}/sabsim${HERE.programEnding}`, "../crates/sabsim/out/sabsim"];

/** What the module adds to its version: what the proof doesn't cover. */
const VERSION = /^(-V|--version)$/;
const TRUST = `This is the module sabsim.wasm, of the same proved sources. The kit's clang compiled it for
WebAssembly, with a heap of about 100 lines of C, and binaryen lowered it. The proof covers
none of these three, nor the scripts that run them, nor node. The module was compared with the
native program when it was made.
`;

/** @type {NodeJS.Signals[]} those that end a program, and that a program can pass on */
const SIGNALS = ["SIGHUP", "SIGINT", "SIGQUIT", "SIGTERM"];

/** @param {string} message whole lines */
function refuse(message) {
  process.stderr.write(message);
  process.exitCode = NOT_RUN;
}

/**
 * Runs the program in place of this one.
 * @param {string} path
 * @param {string[]} words of the command line
 */
function run(path, words) {
  // Signals are listened to before the program begins. One that comes meanwhile is passed on when the program has
  // begun.
  /** @param {NodeJS.Signals} signal */
  const pass = (signal) => void child.kill(signal);
  for (const signal of SIGNALS) process.on(signal, pass);
  const child = spawn(path, words, { stdio: "inherit" });
  child.on("error", (error) => refuse(`sabsim: ${path} can't be run: ${error.message}\n`));
  child.on("exit", (status, signal) => {
    for (const each of SIGNALS) process.off(each, pass);
    if (signal === null) process.exitCode = status ?? NOT_RUN;
    else endBy(signal);
  });
}

/**
 * Ends as the program has ended.
 * @param {NodeJS.Signals} signal
 */
function endBy(signal) {
  // A signal that doesn't end node, such as SIGPIPE, is reported by the status, as a shell does it.
  process.exitCode = 128 + constants.signals[signal];
  if (HERE.hasSignals) process.kill(process.pid, signal);
}

/**
 * Reads an input, or as much of it as the simulator needs: standard input may have no end.
 * @param {string | undefined} file undefined: standard input
 * @param {import("./wasm/simulator.mjs").InputKind} kind
 */
function readInput(file, kind) {
  const from = file === undefined ? 0 : openSync(file);
  try {
    return readAll(from, MOST_READ[kind]);
  } finally {
    if (file !== undefined) closeSync(from);
  }
}

/**
 * @param {string[]} words of the command line
 * @returns {import("./wasm/simulator.mjs").SearchCommandResult}
 * @throws {Error} if the module stops in the middle, or can't be compiled
 */
function endedBy(words) {
  const simulator = new Simulator(new WebAssembly.Module(readFileSync(MODULE)));
  return simulator.command(words, readInput, process.stderr.isTTY === true);
}

/** @param {number} bytes of what a search has found that had no room */
const leftOutText = (bytes) => `sabsim: ${bytes} bytes of what was found are left out: this module has no room for `
  + "them, and the native program writes them\n";

/**
 * Does in this process what the program does.
 * @param {string[]} words of the command line
 */
function runModule(words) {
  let ended;
  try {
    ended = endedBy(words);
  } catch (error) {
    refuse(`sabsim: ${error instanceof Error ? error.message : error}\n`);
    return;
  }
  const { status, output, complaint, leftOut } = ended;
  process.exitCode = leftOut === 0 ? status : NOT_WRITTEN;
  process.stdout.on("error", () => {
    process.stderr.write("sabsim: 17 WriteFailed\n");
    process.exitCode = NOT_WRITTEN;
  });
  process.stdout.write(output);
  if (status === 0 && VERSION.test(words[0])) process.stdout.write(TRUST);
  process.stderr.write(leftOut === 0 ? complaint : `${complaint}${leftOutText(leftOut)}`);
}

// If standard error can't be written, the status alone reports the fault.
process.stderr.on("error", () => {});
const path = PROGRAMS.map((place) => fileURLToPath(new URL(place, import.meta.url))).find((place) => existsSync(place));
const words = process.argv.slice(2);
if (path === undefined) runModule(words);
else run(path, words);
