// What a program prints: it is shown with its thread, for the first seed and the kept run, for all runs or for none.

import assert from "node:assert/strict";
import { dirname, join } from "node:path";
import { test } from "node:test";
import { namedLines } from "../../lib/program/thread/printing.mjs";
import { commandNow, nodeNow } from "../helpers/common.mjs";
import { WORKER, mainWith, programOf } from "../helpers/whole-programs.mjs";

// The run fails if main looks before the worker has stored.
const FILES = {
  "main.mjs": `${mainWith(8)}const worker = started();
worker.once("message", () => {
  const found = Atomics.load(words, 0);
  console.log("the word is %d\\nand that is it", found);
  process.exitCode = found === 7 ? 0 : 3;
});
`,
  "worker.mjs": `${WORKER}process.stdout.write("writes no line");
parentPort.postMessage("ready");
Atomics.store(words, 0, 7);
process.stderr.write(new TextEncoder().encode("bytes\\n"));
`,
};

/** @param {string} main @param {string[]} words of the command line */
function shown(main, ...words) {
  const { stdout, stderr } = commandNow(["--program", main, ...words]);
  return { summary: stdout, lines: stderr.split("\n").filter((line) => line !== "") };
}

test("each line has its thread, and a text that ends amid a line is one", () => {
  assert.equal(namedLines("one\n", "main"), "[main] one\n");
  assert.equal(namedLines("one\n\ntwo", "w.mjs"), "[w.mjs] one\n[w.mjs] \n[w.mjs] two\n");
});

test("what a program prints is shown for the first seed and the kept run, for all runs or for none", (context) => {
  const main = programOf(context, FILES);
  const out = join(dirname(main), "found");
  const some = shown(main, "--seeds", "1..8", "--out", out);
  const [, failed] = /^(\d+) of 8 runs failed/.exec(some.summary) ?? [];
  assert.ok(Number(failed) > 0 && Number(failed) < 8, some.summary);
  const count = (/** @type {string[]} */ lines, /** @type {string} */ line) =>
    lines.filter((each) => each === line).length;
  const started = "worker.mjs started at main.mjs:3:27";
  assert.deepEqual([...new Set(some.lines)].sort(), [
    "[main] and that is it", "[main] the word is 0", "[main] the word is 7", `[${started}] bytes`,
    `[${started}] writes no line`,
  ].filter((line) => some.lines.includes(line)));
  // The kept run is one that fails.
  assert.equal(count(some.lines, "[main] and that is it"), 2);
  assert.ok(count(some.lines, "[main] the word is 0") >= 1);
  assert.equal(count(some.lines, `[${started}] writes no line`), 2);
  const all = shown(main, "--seeds", "1..8", "--program-output", "all");
  assert.equal(count(all.lines, "[main] and that is it"), 8);
  assert.equal(count(all.lines, "[main] the word is 0"), Number(failed));
  assert.deepEqual(shown(main, "--seeds", "1..8", "--no-shorten", "--out", out, "--program-output", "none").lines, []);
  const agents = commandNow([main, "--program-output", "all"]);
  assert.deepEqual([agents.status, agents.stderr], [2,
    "record: --program-output needs --program: what agents print is always shown\n"]);
});

test("a stack that a program prints has no frames of the recorder", (context) => {
  const main = programOf(context, { "main.mjs": `const print = () => console.log(new Error("shown").stack);
setTimeout(print, 1);
setImmediate(function inImmediate() { print(); });` });
  const byNode = nodeNow([main]).stdout.trimEnd().split("\n");
  const { stderr } = commandNow(["--program", main, "--seeds", "1"]);
  const lines = stderr.split("\n").filter((line) => line.startsWith("[main] ")).map((line) => line.slice(7));
  // When a timer of 1 ms comes isn't certain in node.
  assert.deepEqual(lines.sort(), byNode.sort());
});
