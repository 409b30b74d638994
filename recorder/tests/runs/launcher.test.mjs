// `sabsim.mjs` if no program is built: what it reads, and how it ends if it can't do what it is asked for.

import assert from "node:assert/strict";
import { spawn } from "node:child_process";
import { once } from "node:events";
import { cpSync, existsSync, openSync, readFileSync, writeFileSync } from "node:fs";
import { join } from "node:path";
import { before, test } from "node:test";
import { fileURLToPath } from "node:url";
import { MOST_OF_AUTOMATA, SCRIPT_LIMITS } from "../../script/limits.mjs";
import { nodeNow, temporaryFolder } from "../helpers/common.mjs";
import { needing } from "../helpers/needs.mjs";
import { TRAPPING } from "../helpers/wrong-modules.mjs";

const RECORDER = fileURLToPath(new URL("../../", import.meta.url));
const SCRIPT = '{"blocks":[1],"views":[],"agents":[],"schedule":[]}';
const REPORT = { status: 0, stdout: "block 0 00\n", stderr: "" };
const TOO_LONG = { status: 1, stdout: "", stderr: "sabsim: 18 TooLong\n" };
const MOST_WRITTEN = 2 ** 26;

/** @type {string} */
let launcher;

/** Copies the launcher into a folder without a program. @param {import("node:test").TestContext} context */
function copied(context) {
  const folder = temporaryFolder(context);
  for (const part of ["sabsim.mjs", "lib/processes", "script", "wasm"]) {
    cpSync(join(RECORDER, part), join(folder, part), { recursive: true });
  }
  return folder;
}

before((context) => {
  launcher = join(copied(context), "sabsim.mjs");
});

/** How it ends. @param {string[]} words @param {import("node:child_process").SpawnSyncOptions} [options] */
const ended = (words, options = {}, file = launcher) => nodeNow([file, ...words], options);

test("a script may be as long as the limit says, and not longer", (context) => {
  const longest = SCRIPT.padEnd(SCRIPT_LIMITS.text);
  const file = join(temporaryFolder(context), "script.json");
  for (const [text, wanted] of [[longest, REPORT], [`${longest} `, TOO_LONG]]) {
    assert.deepEqual(ended(["replay"], { input: text }), wanted);
    writeFileSync(file, text);
    assert.deepEqual(ended(["replay", file]), wanted);
  }
});

test("a file of automata may be longer than a script, up to a limit of its own", (context) => {
  const text = readFileSync(new URL("../../../tests/search/examples/semaphore.json", import.meta.url), "utf8");
  const longest = text.padEnd(MOST_OF_AUTOMATA);
  const file = join(temporaryFolder(context), "automata.json");
  for (const [given, wanted] of /** @type {[string, number][]} */ ([[longest, 0], [`${longest} `, 1]])) {
    writeFileSync(file, given);
    const { status, stderr } = ended(["search", file]);
    assert.deepEqual([status, /TooLong/.test(stderr)], [wanted, wanted === 1], stderr);
  }
});

test("of a standard input without an end no more is read than a script can have", async () => {
  const child = spawn(process.execPath, [launcher, "replay"], { stdio: ["pipe", "ignore", "pipe"] });
  const part = Buffer.alloc(2 ** 16, " ");
  let [written, stderr] = [0, ""];
  const write = () => {
    while (written < MOST_WRITTEN && child.stdin.write(part)) written += part.length;
    if (written >= MOST_WRITTEN) child.stdin.end();
  };
  child.stdin.on("error", () => {}).on("drain", write);
  child.stderr.setEncoding("utf8").on("data", (text) => { stderr += text; });
  write();
  const [status] = await once(child, "close");
  assert.deepEqual({ status, stdout: "", stderr }, TOO_LONG);
  assert.ok(written < MOST_WRITTEN, `${written} bytes were written`);
});

test("a folder and a file that isn't there can't be read", (context) => {
  const folder = temporaryFolder(context);
  for (const path of [folder, join(folder, "nothing")]) {
    assert.deepEqual(ended(["check", path]), { status: 3, stdout: "", stderr: `sabsim: 19 ReadFailed: ${path}\n` });
  }
});

test("a module that stops in the middle, or can't be compiled, gives no answer, and status 2", (context) => {
  const folder = copied(context);
  for (const [bytes, why] of [[TRAPPING, /^sabsim: the simulator stopped: .+\n$/], [[], /^sabsim: WebAssembly.+\n$/]]) {
    writeFileSync(join(folder, "wasm/sabsim.wasm"), Uint8Array.from(bytes));
    const { status, stdout, stderr } = ended(["replay"], { input: SCRIPT }, join(folder, "sabsim.mjs"));
    assert.deepEqual([status, stdout], [2, ""]);
    assert.match(stderr, why);
  }
});

const withFull = needing("/dev/full", existsSync("/dev/full"));

test("if standard error can't be written, the status alone reports the fault", withFull, () => {
  const full = openSync("/dev/full", "w");
  const stdio = /** @type {const} */ (["pipe", "pipe", full]);
  assert.equal(ended(["--nothing"], { stdio }).status, 2);
  assert.equal(ended(["replay"], { stdio, input: "{}" }).status, 1);
});
