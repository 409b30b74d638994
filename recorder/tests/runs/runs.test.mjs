// Runs of real agents: what their calls return, how the runs end, and what the recorder reports about it.

import assert from "node:assert/strict";
import { test } from "node:test";
import { Group } from "../../lib/run/group.mjs";
import { Difference, NoSabsim, Refused, record } from "../../recorder.mjs";
import { agentsIn, agentsPath, recordCase, shellProgram, temporaryFolder } from "../helpers/common.mjs";
import { CHECKER, withShell } from "../helpers/needs.mjs";
import { placesOfText, recorded } from "../helpers/recorded.mjs";

/** Records a module of the tests. Sabsim checks the run where it is given. */
function recordChecked(name, options) {
  return record({ module: agentsPath(name), sabsim: CHECKER, everywhere: true, ...options });
}

for (const part of ["accesses", "errors"]) {
  test(`${part} are answered by the standard's rules, and sabsim agrees`, async () => {
    const outcome = await recordChecked("answers", { args: [part], agents: 1, buffers: [32] });
    assert.deepEqual([outcome.ending, outcome.detail], ["finished", ""]);
  });
}

test("waits are answered by the standard's rules, and sabsim agrees", async () => {
  const options = { module: agentsPath("answers"), args: ["waits"], agents: 2, buffers: [16], everywhere: true };
  const outcomes = await recorded(options, [1, 2, 3]);
  assert.equal(outcomes.length, 3);
  for (const outcome of outcomes) {
    assert.deepEqual([outcome.ending, outcome.detail], ["finished", ""]);
    assert.deepEqual(outcome.answers[0], ["not-equal", "timed-out", "timed-out", "not-equal", "0", "ok"]);
  }
});

test("an agent that can't block gets a TypeError of its wait, and the others wait", async () => {
  const [first] = (await recordChecked("setup")).answers;
  assert.deepEqual(first, ["2"]);
  const outcome = await recordChecked("setup", { args: ["one more"], agents: 2 });
  assert.deepEqual(outcome.answers, [["3"], ["3", "TypeError", "1"]]);
  assert.deepEqual(outcome.bytes, ["03000000", "0300000001000000"]);
  assert.deepEqual(JSON.parse(outcome.script).blocks, [4, 8]);
  assert.deepEqual(JSON.parse(outcome.script).agents.map((agent) => agent.block), [true, false]);
  assert.deepEqual((await recordChecked("setup", { noBlock: [], agents: 2 })).ending, "deadlock");
});

test("a run in which all agents return has finished", async () => {
  const outcome = await recordCase("addition", { sabsim: CHECKER });
  assert.equal(outcome.ending, "finished");
  assert.equal(outcome.detail, "");
  assert.deepEqual(outcome.answers, [["0", "1", "2"], ["0", "1", "2"]]);
  assert.deepEqual(outcome.progress, [{ returned: 3, calls: 3 }, { returned: 3, calls: 3 }]);
  assert.deepEqual(outcome.bytes, ["030000000300000000000000"]);
  assert.equal(outcome.moves, 18);
  const { blocks, views, agents } = JSON.parse(outcome.script);
  assert.deepEqual(blocks, [12]);
  assert.deepEqual(views, [{ name: "Int32", kind: "Int32", block: 0, offset: 0, length: 3 }]);
  assert.deepEqual(agents[1].calls, Array(3).fill(["add", "Int32", 1, 1]));
});

test("a run in which no agent calls Atomics is no pass, and its script has no calls", async () => {
  const outcome = await recordCase("nothing", { sabsim: CHECKER });
  assert.equal(outcome.ending, "failed");
  assert.match(outcome.detail,
    /^no agent has made a call of Atomics, or another access that is seen, on the recorded buffers/);
  assert.deepEqual(JSON.parse(outcome.script).agents.map((agent) => agent.calls), [[], []]);
});

test("a wait that nobody ends is a deadlock, reported with who waits where", async () => {
  const outcome = await recordCase("waitsForEver", { sabsim: CHECKER });
  assert.equal(outcome.ending, "deadlock");
  const [{ line, column }] = placesOfText("cases", "wait(words(buffers), 1, 0)");
  const where = `at cases.mjs:${line}:${column}`;
  assert.equal(outcome.detail, `agent 0 waits at byte 4 of block 0: its call 0, ["wait", "Int32", 1, 0], ${where}`);
  assert.deepEqual(outcome.answers, [[null], ["0"]]);
  assert.deepEqual(outcome.progress[0], { returned: 0, calls: 1 });
});

test("a wait with a timeout ends; its fraction has no effect, and isn't in the script", async () => {
  const outcome = await recordCase("waitsWithTime", { sabsim: CHECKER, agents: 1 });
  assert.equal(outcome.ending, "finished");
  assert.deepEqual(JSON.parse(outcome.script).schedule, [0, 0, { timeout: 0 }, 0]);
  assert.deepEqual(JSON.parse(outcome.script).agents[0].calls, [["wait", "Int32", 0, 0, 0]]);
});

test("an agent that throws fails the run, with its message and stack", async () => {
  const atOnce = await recordCase("throwsAtOnce", { sabsim: CHECKER });
  assert.equal(atOnce.ending, "failed");
  assert.match(atOnce.detail, /^agent 1 threw RangeError: no such luck\n +at .*cases\.mjs/);
  const later = await recordCase("throwsLater", { sabsim: CHECKER });
  assert.match(later.detail, /^agent 1 threw Error: after a call\n/);
  const noError = await recordCase("throwsNoError");
  assert.equal(noError.detail, "agent 0 threw an object");
});

test("what an agent throws is reported with its message and its causes", async (context) => {
  const details = {
    "{ message: 'no Error' }": /^agent 0 threw an object with the message "no Error"$/,
    "new Error('one', { cause: new RangeError('two', { cause: 3 }) })":
      /^agent 0 threw Error: one\n +at [^\n]*agents\.mjs[^\n]*\ncaused by RangeError: two\n +at [^\n]*\ncaused by 3$/,
  };
  for (const [thrown, detail] of Object.entries(details)) {
    const agents = agentsIn(temporaryFolder(context), `throw ${thrown};`);
    const outcome = await record({ module: agents, agents: 1, buffers: [4], sabsim: false });
    assert.match(outcome.detail, detail);
  }
});

test("an agent that returns a promise fails the run", async () => {
  const outcome = await recordCase("promises");
  assert.deepEqual([outcome.ending, outcome.detail],
    ["failed", "agent 0 returned a promise, but an agent must be synchronous"]);
});

test("an agent that spins for ever meets the limit of calls, or of moves", async () => {
  const calls = await recordCase("spins", { sabsim: CHECKER });
  assert.equal(calls.ending, "limit");
  const [spin, other] = calls.detail.split("\n");
  assert.match(spin, /^agent [01] spins at cases\.mjs:35:\d+: it has made 1000 calls, and goes on$/);
  assert.match(other, /^agent [01] asks for its call \d+, at cases\.mjs:35:\d+$/);
  assert.equal(Math.max(...calls.progress.map((agent) => agent.calls)), 1_000);
  const moves = await recordCase("spins", { sabsim: CHECKER, maxMoves: 100 });
  const [limit, ...agents] = moves.detail.split("\n");
  assert.deepEqual([moves.ending, limit, moves.moves], ["limit", "more than 100 moves would be made", 99]);
  assert.deepEqual(agents.map((line) => line.replace(/call \d+/, "call N")), [
    "agent 0 asks for its call N, at cases.mjs:35:20", "agent 1 asks for its call N, at cases.mjs:35:20",
  ]);
});

test("an agent that makes no call meets the limit of seconds", async () => {
  const outcome = await recordCase("loops", { sabsim: CHECKER, seconds: 0.5 });
  const detail = "agent 1 has made no call for 0.5 s: it is at cases.mjs:40:5";
  assert.deepEqual([outcome.ending, outcome.detail], ["limit", detail]);
});

test("more typed arrays than a script can have are a limit", async () => {
  const outcome = await recordCase("manyViews", { sabsim: CHECKER, agents: 1, buffers: [70] });
  const detail = "more than 64 different typed arrays were used: agent 0 is at cases.mjs:76:54";
  assert.deepEqual([outcome.ending, outcome.detail], ["limit", detail]);
  assert.equal(JSON.parse(outcome.script).views.length, 64);
});

/** @type {ReturnType<typeof recorded> | undefined} */
let bySixteen;

/**
 * Two runs of sixteen agents in the same workers: in the first one they add, and in the second one they call at length.
 */
const runsOfSixteen = () => {
  const asked = { module: agentsPath("cases"), args: ["addsThenCallsLong"], agents: 16, buffers: [65_536, 0, 8, 1] };
  bySixteen ??= recorded({ ...asked, everywhere: true }, [1, 1]);
  return bySixteen;
};

test("a script that would be too long is a limit", async () => {
  const [, outcome] = await runsOfSixteen();
  const [limit] = outcome.detail.split("\n");
  assert.equal(outcome.ending, "limit");
  assert.match(limit, /^the script would be longer than 1048576 bytes: agent \d+ is at cases\.mjs:81:\d+$/);
  assert.ok(outcome.script.length > 900_000 && outcome.script.length <= 1_048_576, `${outcome.script.length} bytes`);
});

test("with `ordinary: refuse` ordinary writes are found, with the agent and the place", async () => {
  const outcome = await recordCase("writesPlainly", { sabsim: CHECKER, ordinary: "refuse" });
  assert.equal(outcome.ending, "failed");
  assert.equal(outcome.detail, "agent 1 changed byte 6 of block 0 from 0 to 5 without a call of Atomics,"
    + ' after its call 0, ["add", "Int32", 0, 1]');
  const atTheEnd = await recordCase("writesPlainlyAtTheEnd", { agents: 1, ordinary: "refuse" });
  assert.equal(atTheEnd.detail, "agent 0 changed byte 8 of block 0 from 0 to 1 without a call of Atomics,"
    + " before its first call");
});

test("a worker that dies fails the run", async () => {
  const outcome = await recordCase("exits", { sabsim: CHECKER });
  assert.equal(outcome.ending, "failed");
  assert.match(outcome.detail, /^agent 1's worker died: .*exit code 7$/);
});

test("what an agent does after its run changes nothing in the outcome", async () => {
  const outcome = await recordCase("cleansUp", { sabsim: CHECKER });
  assert.equal(outcome.ending, "deadlock");
  assert.deepEqual(outcome.bytes, ["000000000000000000000000"]);
  assert.equal(outcome.answers.flat().length, 2);
  const endless = await recordCase("catchesAll", { sabsim: CHECKER });
  assert.match(endless.detail, /^agent 1 threw Error: the end/);
});

test("an ordinary write that failed for want of stack is seen when the agent repeats it", async () => {
  // Before its one call the agent works as long as a slow machine needs.
  const outcomes = await recorded({ module: agentsPath("retried"), agents: 1, seconds: 60 }, [1, 2, 3]);
  assert.equal(outcomes.length, 3);
  for (const { ending, detail, bytes, ordinary } of outcomes) {
    assert.deepEqual([ending, detail, bytes], ["finished", "", ["01000000", "01".repeat(60)]]);
    assert.ok(ordinary >= 60);
  }
});

test("if an agent runs out of stack during a call, the run fails with that message, or isn't harmed", async () => {
  const outcome = await recordCase("deep", { sabsim: CHECKER, agents: 1, seconds: 1 });
  const outOfStack = /^agent 0 (ran out of stack in|didn't come out of) a call/;
  if (outcome.ending === "failed") assert.match(outcome.detail, outOfStack);
  else assert.equal(outcome.bytes[0].slice(0, 8), "01000000");
});

test("a call that no script can have is refused by name and line, also if the agent catches it", async (context) => {
  const agents = agentsIn(temporaryFolder(context), `
    const words = new Int32Array(buffers[0]);
    if (agent === 0) return void Atomics.store(words, 2, 1);
    try {
      Atomics.waitAsync(words, 0, 0);
    } catch {
      // That it is caught doesn't save the run.
    }`);
  const { ending, detail, script } = await record({ module: agents, agents: 2, buffers: [16], sabsim: CHECKER });
  assert.equal(ending, "failed");
  const [what, where] = detail.split("\n");
  const why = "Atomics.waitAsync: no script can have this function: use Atomics.wait";
  assert.equal(what, `agent 1 made a call that the recorder can't record: Error: ${why}`);
  assert.match(where, /agents\.mjs:6:\d+/);
  assert.deepEqual(JSON.parse(script).agents[1].calls, []);
});

test("the agents' Atomics look like the engine's", async (context) => {
  const agents = agentsIn(temporaryFolder(context), `
    const names = Object.getOwnPropertyNames(Atomics).map((name) => [name, Atomics[name].name, Atomics[name].length]);
    throw new Error(JSON.stringify([String(Atomics), names, Atomics.isLockFree(4)]));`);
  const { detail } = await record({ module: agents, agents: 1, buffers: [4], sabsim: false });
  const names = Object.getOwnPropertyNames(Atomics).map((name) => [name, Atomics[name].name, Atomics[name].length]);
  assert.equal(detail.split("\n")[0], `agent 0 threw Error: ${JSON.stringify(["[object Atomics]", names, true])}`);
});

test("sixteen agents, four buffers and the greatest buffer are served", async () => {
  const [outcome] = await runsOfSixteen();
  assert.equal(outcome.ending, "finished");
  assert.equal(outcome.bytes[0].slice(0, 128), "03000000".repeat(16));
});

test("options that can't be are refused", async () => {
  const cases = [
    { agents: 0 }, { agents: 17 }, { agents: 1.5 }, { buffers: [] }, { buffers: [65_537] }, { buffers: [-1] },
    { buffers: [1, 1, 1, 1, 1] }, { seed: -1 }, { seed: 0.5 }, { maxMoves: 100_001 }, { seconds: 0 },
    { strategy: "switch:2" }, { noBlock: [16] },
  ];
  for (const options of cases) {
    await assert.rejects(recordCase("nothing", options), Refused, JSON.stringify(options));
  }
  const agents = agentsPath("cases");
  await assert.rejects(record({ module: agents, sabsim: false, buffers: [4] }), /the number of agents is missing/);
  await assert.rejects(record({ module: agents, sabsim: false, agents: 1 }), /the buffers' bytes are missing/);
  await assert.rejects(record({ agents: 1, buffers: [4], sabsim: false }), Refused);
});

test("a module that can't be loaded is refused", async (context) => {
  const folder = temporaryFolder(context);
  const load = (module) => record({ module, agents: 1, buffers: [4], sabsim: false });
  await assert.rejects(load(`${folder}/none.mjs`), /^Error: there is no file \/.*none\.mjs$/);
  await assert.rejects(load(new URL("none.mjs", import.meta.url)), /^Error: there is no file \/.*\/runs\/none\.mjs$/);
  await assert.rejects(load("data:text/javascript,export const setup = 1"), Refused);
  await assert.rejects(load(new URL("data:text/javascript,export const a = 1")), /no function as its default export/);
  await assert.rejects(load(new URL("data:text/javascript,syntax error")), /SyntaxError/);
  await assert.rejects(load(new URL("data:text/javascript,throw new Error('at once')")), /at once/);
  await assert.rejects(load(new URL("data:text/javascript,process.exit(3)")), /exit code 3/);
  const endless = { module: "data:text/javascript,for (;;);", args: [], agents: 1, buffers: [4], loadSeconds: 1 };
  await assert.rejects(Group.open(endless), /wasn't loaded within 1 s/);
});

test("a missing sabsim is reported before anything runs", async () => {
  const options = { sabsim: "/nowhere/sabsim" };
  const message = "there is no program sabsim at /nowhere/sabsim";
  await assert.rejects(recordCase("nothing", options), { constructor: NoSabsim, message });
});

test("a difference shows both sides", withShell, async (context) => {
  const folder = temporaryFolder(context);
  const lying = shellProgram(folder, "cat > /dev/null\nprintf '0 0 0 begin\\n1 0 0 act 5\\n'");
  const message = "seed 1: the code and sabsim differ, in line 2 of the report\n"
    + "  the code: 1 0 0 act 0\n  sabsim:   1 0 0 act 5";
  await assert.rejects(recordCase("addition", { agents: 1, sabsim: lying }), { constructor: Difference, message });
  const refused = recordCase("addition", { sabsim: shellProgram(folder, "echo 'sabsim: 13 BadCall' >&2\nexit 1") });
  await assert.rejects(refused, /status 1 on the script: sabsim: 13 BadCall/);
});
