// --replay of a script that somebody has written, for one interleaving: it is made on the code, and what --out asks for
// is kept. What has no effect in `sabsim replay` has none here.

import assert from "node:assert/strict";
import { readFileSync, readdirSync, writeFileSync } from "node:fs";
import { join } from "node:path";
import { test } from "node:test";
import { commandThere, temporaryFolder } from "../helpers/common.mjs";
import { CHECKING } from "../helpers/needs.mjs";
import { simulated } from "../helpers/simulate.mjs";

const MODULE = `
export const setup = { agents: 2, buffers: [4], names: { COUNT: 0 } };
export default function agent({ buffers: [buffer] }) {
  const words = new Int32Array(buffer);
  Atomics.store(words, 0, Atomics.load(words, 0) + 1);
}
export const check = ([buffer]) => new Int32Array(buffer)[0] === 2;
`;

const CALLS = [["load", "n", 0], ["store", "n", 0, 1]];
const LOST_ADDITION = [0, 0, 0, 1, 1, 1, 0, 0, 0, 1, 1, 1];

/** A script as a person writes it. */
const byHand = (schedule, first = { blocks: [4] }, block = { block: 0 }) => JSON.stringify({
  ...first, views: [{ name: "n", kind: "Int32", ...block, offset: 0, length: null }],
  agents: [{ block: true, calls: CALLS }, { block: true, calls: CALLS }], schedule,
});

/** Replays a script on the module. */
async function replayed(context, script, { code = MODULE, words = [] } = {}) {
  const folder = temporaryFolder(context);
  const [module, file] = [join(folder, "count.mjs"), join(folder, "mine.json")];
  writeFileSync(module, code);
  writeFileSync(file, script);
  const options = words.map((word) => word.replace("FOLDER", folder));
  const ended = await commandThere([module, "--replay", file, ...CHECKING, ...options]);
  return { folder, file, module, ...ended };
}

test("an interleaving that somebody has in mind is made on the code, and its page is kept", async (context) => {
  const { folder, file, status, stdout, stderr } =
    await replayed(context, byHand(LOST_ADDITION), { words: ["--out", "FOLDER/found"] });
  assert.deepEqual([status, stderr], [1, ""], stderr);
  const found = join(folder, "found");
  const names = ["json", "report", "trace.jsonl", "explained", "svg", "html"].map((end) => `mine.replayed.${end}`);
  const lines = stdout.trimEnd().split("\n");
  assert.ok(lines[0].startsWith(`replayed ${file}, with the clocks and random numbers of seed 1`));
  assert.ok(lines.includes("1 of 1 run failed: 1 check failed"), stdout);
  assert.equal(lines.at(-1), `kept in ${found}: ${names.join(", ")}`);
  assert.deepEqual(readdirSync(found).sort(), [...names].sort());
  const kept = (end) => readFileSync(join(found, `mine.replayed.${end}`), "utf8");
  assert.deepEqual(JSON.parse(kept("json")).schedule, LOST_ADDITION);
  assert.equal((await simulated(["replay"], kept("json"))).output, kept("report"));
  assert.match(kept("trace.jsonl"), /"source":"count\.mjs:5:\d+"/);
  assert.match(kept("html"), /^<!doctype html>\n[^]*count\.mjs[^]*<\/html>\n$/);
  assert.equal(readFileSync(file, "utf8"), byHand(LOST_ADDITION), "the script that was read stays as it is");
});

test("a run that finishes is kept too, and a script of the older form is taken", async (context) => {
  const inOrder = [0, 0, 0, 0, 0, 0, 1, 1, 1, 1, 1, 1];
  const script = byHand(inOrder, { bytes: 4 }, {}).replace('["store","n",0,1]]}]', '["store","n",0,2]]}]');
  const { folder, status, stdout } = await replayed(context, script, { words: ["--out", "FOLDER/found"] });
  assert.equal(status, 0, stdout);
  assert.match(stdout, /^1 run: 1 finished$/m);
  assert.ok(readdirSync(join(folder, "found")).includes("mine.replayed.html"));
});

test("moves without an effect are left out, as `sabsim replay` has it, and a line says so", async (context) => {
  // Behind the last call, and amid the others.
  const cases = [
    [[...LOST_ADDITION, 1, 1, { timeout: 0 }],
      "3 moves have no effect and are left out, as in `sabsim replay`; the first is move 12: stuck done"],
    [[...LOST_ADDITION.slice(0, 9), 0, 1, 1, 1],
      "1 move has no effect and is left out, as in `sabsim replay`; the first is move 9: stuck done"],
    [[{ timeout: 1 }, ...LOST_ADDITION],
      "1 move has no effect and is left out, as in `sabsim replay`; the first is move 0: stuck not-waiting"],
  ];
  for (const [schedule, line] of cases) {
    const { status, stdout, stderr } = await replayed(context, byHand(schedule));
    assert.equal(status, 1, stderr);
    assert.equal(stdout.split("\n")[1], line);
    assert.match(stdout, /^1 of 1 run failed: 1 check failed$/m);
  }
});

test("a folder that can't be made is refused before the run", async (context) => {
  const words = ["--out", "FOLDER/count.mjs"];
  const { status, stdout, stderr } = await replayed(context, byHand(LOST_ADDITION), { words });
  assert.deepEqual([status, stdout], [2, ""]);
  assert.match(stderr, /^record: --out .*count\.mjs can't be used: /);
});

test("a script of another module is refused for that, and it is said what to do", async (context) => {
  const larger = MODULE.replace("buffers: [4]", "buffers: [8]").replace("COUNT: 0", "COUNT: 0, LAST: 1");
  const { file, module, status, stderr } = await replayed(context, byHand(LOST_ADDITION), { code: larger });
  assert.equal(status, 2);
  assert.ok(stderr.startsWith(`record: ${file} is a script of another module: it has 2 agents and buffers of 4 bytes, `
    + `but in ${module} \`names\` puts LAST at index 1`), stderr);
  assert.ok(stderr.endsWith("Replay it with the module that it was kept from\n"), stderr);
});

test("if an agent's first call differs, the error says that the script may be of another module", async (context) => {
  const other = MODULE.replace("Atomics.store(", "Atomics.exchange(words, 0, 5);\n  Atomics.store(");
  const { status, stderr } = await replayed(context, byHand(LOST_ADDITION), { code: other });
  assert.equal(status, 3);
  assert.match(stderr, /^record: the code no longer does the same: agent 0's call 0 was /);
  assert.ok(stderr.endsWith("; if the script is of another module, replay it with that one\n"), stderr);
});
