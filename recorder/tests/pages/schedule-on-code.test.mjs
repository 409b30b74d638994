// A schedule that was changed, made on the code by the command that a page shows for it.

import assert from "node:assert/strict";
import { test } from "node:test";
import { howMade, replayCommand } from "../../lib/keeping/how-made.mjs";
import { record } from "../../recorder.mjs";
import { Editing } from "../../schedule/editing.mjs";
import { earlier, later } from "../../schedule/edits.mjs";
import { whyNotOnCode } from "../../schedule/on-code.mjs";
import { agentsIn, commandThere, fileIn, temporaryFolder } from "../helpers/common.mjs";
import { simulate } from "../helpers/simulate.mjs";

// Agent 1 stores a word for agent 0. If the last argument says so, what agent 0 does depends on it.
const BODY = `const words = new Int32Array(buffers[0]);
if (agent === 1) Atomics.store(words, 0, 1);
else if (args[0] === "reads") Atomics.store(words, Atomics.load(words, 0) + 1, 5);
else Atomics.store(words, 1, 5);`;

/**
 * Records a run, moves agent 1's step to the first place, or from there, and runs the code by that schedule.
 * @returns {Promise<{ moved: Editing, ended: import("../helpers/programs.mjs").Ended }>}
 */
async function movedOnCode(context, args) {
  const folder = temporaryFolder(context);
  const module = agentsIn(folder, BODY);
  const { script } = await record({ module, args, agents: 2, buffers: [12], sabsim: false, seed: 1 });
  const moved = new Editing(script, simulate);
  let at = moved.now.turns.findIndex(({ agent }) => agent === 1);
  if (at === 0) moved.change(later, at);
  else while (at > 0) ({ at } = moved.change(earlier, at));
  assert.equal(whyNotOnCode(moved), undefined);
  const file = fileIn(folder, "seed-1.changed.json", moved.text);
  return { moved, ended: await commandThere([module, "--replay", file, "--", ...args]) };
}

test("code that makes the same calls makes them in the changed order", async (context) => {
  const { moved, ended: { status, stdout, stderr } } = await movedOnCode(context, ["stores"]);
  assert.ok(moved.isChanged);
  assert.deepEqual([status, stderr], [0, ""]);
  assert.match(stdout, /1 run made 2 calls|finished/);
});

test("code that takes another path is reported with the place", async (context) => {
  const { moved, ended: { status, stderr } } = await movedOnCode(context, ["reads"]);
  assert.ok(moved.differences.answers.length > 0);
  assert.equal(status, 3);
  assert.match(stderr, /no longer does the same: agent 0's call 1 was \["store", .*\] in the script, and is now/);
});

test("the command has the options that the run depends on, as a shell takes them", () => {
  const fails = { races: "fail", limits: "fail", unrecorded: "fail" };
  const usual = { ordinary: "watch", clock: "run", timeouts: 0.05, ...fails };
  const { options, args } = replayCommand({ ...usual, module: "a b.mjs", clock: "real", args: ["one", "it's"] });
  assert.match(options, /^(?:node \S+|npx sabsim-record) 'a b\.mjs' --clock real$/);
  assert.equal(args, " -- one 'it'\\''s'");
  assert.equal(replayCommand({ ...usual, module: "a.mjs", args: [] }).args, "");
});

test("how a run was made has no command if its init or check isn't the module's own", () => {
  const options = { module: "file:///x.mjs?y", args: ["one"], agents: 2, maxMoves: 9, seconds: 10, fresh: false };
  const { module, options: words, command } = howMade(options);
  assert.deepEqual([module, words], ["file:///x.mjs?y", "--agents 2 --max-moves 9 -- one"]);
  assert.match(`${command.options}${command.args}`, /^(?:node \S+|npx sabsim-record) 'file:\/\/\/x\.mjs\?y' -- one$/);
  for (const own of ["init", "check"]) {
    assert.deepEqual(howMade({ ...options, [own]() {} }), { module, options: words, command: undefined });
  }
});
