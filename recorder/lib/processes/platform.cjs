// What differs between operating systems, as a value that a function is given; the running system's is the default.
// macOS does all of this as Linux does. This is a CommonJS module, since such a one is loaded sooner.
"use strict";

const path = require("node:path");

/**
 * @typedef {object} Platform
 * @property {boolean} isWindows as node's functions on URLs and paths take it
 * @property {import("node:path").PlatformPath} path the module for its paths
 * @property {RegExp} place a place in a text: a file's URL or path, then line and column
 * @property {string} programEnding of the name of a program's file
 * @property {boolean} hasSignals whether a signal can end a process, so that others see by which it has ended
 * @property {boolean} hasGroups whether a process can lead a group of processes that a signal ends
 * @property {boolean} ignoresCase whether the names of environment variables ignore case
 * @property {number} heldMilliseconds how long another program may hold a file that was just written; 0: it can't
 * @property {(word: string) => string} quoted a word as its usual shell takes it
 */

/** What shells of POSIX take as it is. */
const PLAIN = /^[\w@%+=:,./-]+$/;

/** What cmd.exe and PowerShell take as it is. PowerShell makes a list of `8,2`, and keeps a bare `--` for itself. */
const PLAIN_ON_WINDOWS = /^(?!--$)[\w+:./-]+$/;

/** @param {string} word @returns {string} in the signs that both take; a program takes `\"` there for `"` */
const inQuotes = (word) => `"${word.replace(/(\\*)(?="|$)/g, "$1$1").replaceAll('"', '\\"')}"`;

/** @type {Readonly<Platform>} Linux, macOS and their kin */
const POSIX = Object.freeze({
  isWindows: false,
  path: path.posix,
  place: /(?<![\w.])(?:file:\/\/)?\/[^\s:]+:\d+:\d+/g,
  programEnding: "",
  hasSignals: true,
  hasGroups: true,
  ignoresCase: false,
  heldMilliseconds: 0,
  quoted: (word) => (PLAIN.test(word) ? word : `'${word.replaceAll("'", "'\\''")}'`),
});

/** @type {Readonly<Platform>} */
const WINDOWS = Object.freeze({
  isWindows: true,
  path: path.win32,
  place: /(?<![\w.])(?:file:\/\/\/)?[A-Za-z]:[\\/][^\s:]+:\d+:\d+/g,
  programEnding: ".exe",
  hasSignals: false,
  hasGroups: false,
  ignoresCase: true,
  heldMilliseconds: 1_000,
  quoted: (word) => (PLAIN_ON_WINDOWS.test(word) ? word : inQuotes(word)),
});

const HERE = process.platform === "win32" ? WINDOWS : POSIX;

/** The machine's kind: the name of the folder in which the package has the program for it. */
const MACHINE = `${process.platform}-${process.arch}`;

module.exports = { HERE, MACHINE, POSIX, WINDOWS };
