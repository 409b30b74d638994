// Files that an earlier version has kept replay as they did. So no member of them may get another name. `kept-0.1.0`
// has what the last commit before 0.2.0 kept of a run of its module; that version asked a native program, and had none.

import assert from "node:assert/strict";
import { readFileSync } from "node:fs";
import { test } from "node:test";
import { fileURLToPath } from "node:url";
import { commandHere } from "../helpers/command-here.mjs";
import { simulated } from "../helpers/simulate.mjs";

/** @param {string} name */
const pathOf = (name) => fileURLToPath(new URL(`../kept-0.1.0/${name}`, import.meta.url));
const textOf = (/** @type {string} */ name) => readFileSync(pathOf(name), "utf8");

for (const [name, call] of [["seed-1.original.json", 5], ["seed-1.json", 3]]) {
  test(`${name}, which 0.1.0 kept, replays on its module with the same end`, async () => {
    const words = [pathOf("mailbox.agents.mjs"), "--replay", pathOf(String(name))];
    const { status, stdout, stderr } = await commandHere(words);
    const lines = stdout.split("\n");
    assert.deepEqual([status, stderr], [1, ""], stdout);
    assert.ok(lines.includes("1 of 1 run failed: 1 deadlock"), stdout);
    const place = `its call ${call}, ["wait", "STATE", 0, 0], at mailbox.mjs:15:79`;
    assert.ok(lines.includes(`  agent 2 waits at STATE: ${place}`), stdout);
  });
}

test("the simulator writes the same report of it as before, and finds no unordered accesses in its trace", async () => {
  const { status, output } = await simulated(["replay"], textOf("seed-1.json"));
  assert.deepEqual([status, output], [0, textOf("seed-1.report")]);
  const judged = await simulated(["judge", "--trace"], textOf("seed-1.trace.jsonl"));
  assert.equal(judged.status, 0, judged.output);
});
