// Helpers: the agents of a program's script that stand for Atomics.waitAsync. The scripts, answers and orders that are
// expected here are worked out by hand from the program's text and from the rules of docs/MODEL.md.

import assert from "node:assert/strict";
import { readFileSync } from "node:fs";
import { after, before, describe, it } from "node:test";
import { sendersIn } from "../../lib/keeping/message-senders.mjs";
import { runDataOf } from "../../lib/keeping/kept-page.mjs";
import { wordsText } from "../../lib/keeping/program-words.mjs";
import { keptScript } from "../../lib/shorter/kept-script.mjs";
import { changedData } from "../../page/changed.mjs";
import { Run } from "../../page/model.mjs";
import { readReport } from "../../schedule/report-entries.mjs";
import { TableRuns } from "../helpers/program-findings.mjs";
import { simulated } from "../helpers/simulate.mjs";
import { WORKER, mainWith, runsOf } from "../helpers/whole-programs.mjs";
import { PROGRAMS, urlOf } from "../programs/table.mjs";

const SEEDS = 200;

/** Memory that another thread could reach: it is block 0. */
const SHARED = `const words = new Int32Array(new SharedArrayBuffer(16));
new MessageChannel().port1.postMessage(words);\n`;

/** The script's calls of that message, and of an agent at a word. */
const MESSAGE = ["notify", "Int32_b3", 0, 0];
const handOver = (/** @type {string} */ view, /** @type {number} */ place) => ["notify", view, place, 0];
const wait = (/** @type {(number | string)[]} */ ...given) => ["wait", "Int32_b0", ...given];
const notify = (/** @type {number[]} */ ...given) => ["notify", "Int32_b0", ...given];

/** So many moves of an agent. @param {number} agent @param {number} count */
const times = (agent, count) => Array(count).fill(agent);

/** A run of a program of one thread, which is the same with each seed, and its script. */
async function onlyRun(context, main, options = {}) {
  const [outcome] = await runsOf(context, { "main.mjs": `${SHARED}${main}` }, { options });
  assert.equal(outcome.checked, true, outcome.noScript);
  const script = JSON.parse(outcome.script ?? "");
  return { outcome, script, calls: script.agents.map(({ calls }) => calls), schedule: script.schedule };
}

/** What sabsim replays. @param {string} [script] */
const replayOf = (script) => readReport(simulated(["replay", "--format", "json"], script ?? "").output);

describe("a wait of waitAsync in a script", () => {
  it("is handed to a helper, which waits, is woken, and hands it back", async (context) => {
    const { outcome, script } = await onlyRun(context, `const { value } = Atomics.waitAsync(words, 0, 0);
      Atomics.notify(words, 0);
      if (await value === "ok") Atomics.store(words, 0, 7);`);
    const view = "waitAsync_1_of_0";
    assert.deepEqual(script, {
      blocks: [16, 0, 0, 16_384],
      views: [
        { name: "Int32_b3", kind: "Int32", block: 3, offset: 0, length: 4_096 },
        // The last two words of the block.
        { name: view, kind: "Int32", block: 3, offset: 16_376, length: 2 },
        { name: "Int32_b0", kind: "Int32", block: 0, offset: 0, length: 4 },
      ],
      agents: [
        { block: true, calls: [MESSAGE, handOver(view, 0), notify(0), handOver(view, 1), ["store", "Int32_b0", 0, 7]] },
        { block: true, calls: [handOver(view, 0), wait(0, 0), handOver(view, 1)] },
      ],
      schedule: [
        ...times(0, 3), ...times(0, 3), ...times(1, 3), ...times(1, 2), ...times(0, 3), ...times(1, 2), ...times(1, 3),
        ...times(0, 3), ...times(0, 3),
      ],
    });
    const done = replayOf(outcome.script).entries.filter(({ what }) => what !== "begin" && what !== "return");
    assert.deepEqual(done.map(({ entry, agent, call, what, answer }) => [entry, agent, call, what, answer]), [
      [1, 0, 0, "act", 0], [4, 0, 1, "act", 0], [7, 1, 0, "act", 0], [10, 1, 1, "wait", undefined],
      [12, 0, 2, "act", 1],
      [14, 1, 1, "leave", "ok"], [17, 1, 2, "act", 0], [20, 0, 3, "act", 0], [23, 0, 4, "act", 7],
    ]);
    assert.deepEqual([done[4].found, done[5].found], [{ waited: 1, woken: [1] }, { woken_by: 12 }]);
    // Of the thread there are a message and three calls: none of them hands anything over.
    assert.deepEqual(outcome.answers, [["0", "ok", "1", "7"]]);
    assert.deepEqual([outcome.calls, outcome.progress], [4, [{ returned: 4, calls: 4 }]]);
  });

  it("is read back as the thread's own", async (context) => {
    const { outcome, script } = await onlyRun(context, `const { value } = Atomics.waitAsync(words, 0, 0);
      Atomics.notify(words, 0);
      await value;`);
    const { canBlock, steps, draws } = keptScript(outcome.script ?? "", "the run");
    assert.deepEqual(canBlock, [true]);
    assert.deepEqual(steps.map(({ agent, call, text }) => [agent, call, text]), [
      [0, 0, '["notify", "Int32_b3", 0, 0]'], [0, 1, '["wait", "Int32_b0", 0, 0]'], [0, 2, '["notify", "Int32_b0", 0]'],
    ]);
    assert.deepEqual(draws.map(({ agent, goesOn, step }) => [agent, goesOn, step.call]), [
      [0, false, 0], [0, false, 1], [0, false, 2], [0, true, 1],
    ]);
    const views = script.views.map((view) =>
      (view.name === "waitAsync_1_of_0" ? { ...view, name: "waitAsync_1_of_1" } : view));
    const text = JSON.stringify({ ...script, views }).replaceAll("waitAsync_1_of_0", "waitAsync_1_of_1");
    assert.throws(() => keptScript(text, "x.json"),
      /^Error: x\.json is no script .*: its views of waitAsync name agents that it doesn't have$/);
  });

  it("has a helper of its own if another one is pending, and else that one's", async (context) => {
    const { outcome, calls, schedule } = await onlyRun(context, `
      const [one, two] = [0, 1].map((index) => Atomics.waitAsync(words, index, 0).value);
      Atomics.notify(words, 1);
      await two;
      const three = Atomics.waitAsync(words, 2, 0).value;
      Atomics.notify(words, 0);
      Atomics.notify(words, 2);
      await Promise.all([one, three]);`);
    const [first, second] = ["waitAsync_1_of_0", "waitAsync_2_of_0"];
    assert.deepEqual(calls, [
      [
        MESSAGE, handOver(first, 0), handOver(second, 0), notify(1), handOver(second, 1), handOver(second, 0),
        notify(0), notify(2),
        handOver(first, 1), handOver(second, 1),
      ],
      [handOver(first, 0), wait(0, 0), handOver(first, 1)],
      [handOver(second, 0), wait(1, 0), handOver(second, 1), handOver(second, 0), wait(2, 0), handOver(second, 1)],
    ]);
    const [begins, ends] = [
      (/** @type {number} */ helper) => [...times(0, 3), ...times(helper, 5)],
      (/** @type {number} */ helper) => [...times(helper, 5), ...times(0, 3)],
    ];
    assert.deepEqual(schedule, [
      ...times(0, 3), ...begins(1), ...begins(2), ...times(0, 3), ...ends(2), ...begins(2), ...times(0, 6), ...ends(1),
      ...ends(2),
    ]);
    // What is handed over is no message.
    assert.deepEqual(sendersIn(replayOf(outcome.script).entries), [0]);
  });

  it("has a helper of another thread never", async (context) => {
    const round = `const { value } = Atomics.waitAsync(words, 0, 0); Atomics.notify(words, 0); await value;`;
    const [outcome] = await runsOf(context, {
      "main.mjs": `import { Worker } from "node:worker_threads";
        ${SHARED}${round}
        new Worker(new URL("./worker.mjs", import.meta.url), { workerData: words });`,
      "worker.mjs": `${WORKER}${round}`,
    });
    assert.equal(outcome.checked, true);
    const { views, agents } = JSON.parse(outcome.script ?? "");
    const helpers = views.flatMap(({ name }) => (name.startsWith("waitAsync_") ? [name] : []));
    assert.deepEqual([helpers, agents.length], [["waitAsync_2_of_0", "waitAsync_3_of_1"], 4]);
  });

  it("ends by its timeout if that is up", async (context) => {
    const { calls, schedule, outcome } = await onlyRun(context, `setTimeout(() => {}, 90);
      if (await Atomics.waitAsync(words, 0, 0, 50).value !== "timed-out") throw new Error("who has notified?");`);
    assert.deepEqual(calls[1][1], wait(0, 0, 50));
    assert.deepEqual(schedule, [...times(0, 6), ...times(1, 5), { timeout: 1 }, 1, ...times(1, 3), ...times(0, 3)]);
    assert.deepEqual(outcome.answers, [["0", "timed-out"]]);
  });

  it("is the thread's own if it returns at once", async (context) => {
    const { calls, schedule, outcome } = await onlyRun(context, `const found = [
        Atomics.waitAsync(words, 0, 5), Atomics.waitAsync(words, 1, 0, 0), Atomics.waitAsync(words, 2, 0, -1)];
      const said = found.map(({ async, value }) => async + value).join();
      if (said !== "falsenot-equal,falsetimed-out,falsetimed-out") throw found;`);
    assert.deepEqual(calls, [[MESSAGE, wait(0, 5), wait(1, 0, 0), wait(2, 0, -1)]]);
    assert.deepEqual(schedule, [...times(0, 6), 0, 0, { timeout: 0 }, 0, 0, 0, { timeout: 0 }, 0]);
    assert.deepEqual(outcome.answers, [["0", "not-equal", "timed-out", "timed-out"]]);
  });

  it("goes on at the end of the script if nothing settles it", async (context) => {
    const { calls, outcome } = await onlyRun(context, "Atomics.waitAsync(words, 3, 0); Atomics.store(words, 0, 1);");
    const view = "waitAsync_1_of_0";
    assert.deepEqual(calls,
      [[MESSAGE, handOver(view, 0), ["store", "Int32_b0", 0, 1]], [handOver(view, 0), wait(3, 0)]]);
    const [, helper] = replayOf(outcome.script).agents;
    assert.deepEqual([helper.returned, helper.of, helper.standing?.at, helper.standing?.notified],
      [1, 2, "waits", false]);
    assert.deepEqual(outcome.answers, [["0", null, "1"]]);
  });

  it("waits for what the word is when the memory becomes a block", async (context) => {
    const [outcome] = await runsOf(context, { "main.mjs": `const words = new Int32Array(new SharedArrayBuffer(16));
      const longs = new BigInt64Array(words.buffer, 8);
      const all = [Atomics.waitAsync(words, 1, 0), Atomics.waitAsync(longs, 0, 0n)].map(({ value }) => value);
      words[1] = 9; longs[0] = -3n;
      new MessageChannel().port1.postMessage(words);
      if (Atomics.notify(words, 1) + Atomics.notify(longs, 0) !== 2) throw new Error("two wait");
      await Promise.all(all);` });
    assert.deepEqual([outcome.ending, outcome.checked], ["finished", true]);
    const { agents } = JSON.parse(outcome.script ?? "");
    assert.deepEqual(agents.slice(1).map(({ calls }) => calls[1]), [wait(1, 9), ["wait", "BigInt64_b0_at8", 0, "-3"]]);
  });
});

it("a run with helpers is judged by its trace: no script orders a thread's accesses with them", async (context) => {
  const { outcome } = await onlyRun(context, `const longs = new BigInt64Array(words.buffer);
    const { value } = Atomics.waitAsync(words, 0, 0);
    Atomics.store(longs, 0, 5n);
    Atomics.notify(words, 0);
    await value;`);
  assert.deepEqual([outcome.ending, outcome.races], ["finished", []]);
  const judged = (/** @type {string[]} */ words, text = "") => simulated(["judge", ...words], text).output;
  assert.match(judged(["--trace"], outcome.trace), /^no data race: /);
  // The helper is agent 1.
  assert.match(judged([], outcome.script),
    /^race at bytes 0 to 3 of block 0: agent 1 in wait\(Int32_b0, 0, 0\) at 10, agent 0 in store/);
});

describe("a notify in a script", () => {
  it("wakes threads that sleep and helpers in the order in which they came, and counts both", async (context) => {
    const outcomes = await runsOf(context, {
      "main.mjs": `${mainWith(16)}new MessageChannel().port1.postMessage(words);
        const wait = () => Atomics.waitAsync(words, 0, 0).value;
        const waits = [wait(), wait()];
        started();
        // The worker sleeps when nothing else can move. A thread that is woken goes on before the next notify.
        const others = () => new Promise((done) => setTimeout(done, 5_000));
        await others();
        waits.push(wait());
        for (const count of [2, 1, 1]) { Atomics.notify(words, 0, count); await others(); }
        await Promise.all(waits);`,
      "worker.mjs": `${WORKER}Atomics.wait(words, 0, 0);`,
    }, { seeds: [1, 2, 3, 4], options: { timeouts: 0 } });
    for (const { ending, checked, script } of outcomes) {
      assert.deepEqual([ending, checked], ["finished", true]);
      const woken = replayOf(script)
        .entries.flatMap(({ what, found }) => (what === "act" && found?.woken?.length > 0 ? [found] : []));
      // Threads are agents 0 and 1, and helpers are numbered by the first wait of each.
      assert.deepEqual(woken, [{ waited: 4, woken: [2, 3] }, { waited: 2, woken: [1] }, { waited: 1, woken: [4] }]);
    }
  });

  it("would wake helpers of a thread that has ended: then no script, sabsim judges the trace", async (context) => {
    const files = (/** @type {string} */ then) => ({
      "main.mjs": `${mainWith(16)}started().on("exit", () => { ${then} });`,
      "worker.mjs": `${WORKER}Atomics.waitAsync(words, 0, 0);`,
    });
    const [[there], [elsewhere]] = [
      await runsOf(context, files("Atomics.notify(words, 0);")),
      await runsOf(context, files("Atomics.notify(words, 1);")),
    ];
    assert.match(there.noScript ?? "",
      /^a notify came where a thread that has ended had waited by Atomics\.waitAsync, which no script can have:/);
    assert.deepEqual([elsewhere.checked, there.answers], [true, undefined]);
  });
});

describe("how many helpers there can be", () => {
  /** Waits that are pending at once. @param {number} count */
  const waits = (count) => `for (let at = 0; at < ${count}; at += 1) Atomics.waitAsync(words, 0, 0);
    if (Atomics.notify(words, 0) !== ${count}) throw new Error("all of them wait");`;

  it("as many as a script has agents besides the threads", async (context) => {
    const { calls } = await onlyRun(context, waits(15));
    assert.equal(calls.length, 16);
    const [outcome] = await runsOf(context, { "main.mjs": `${SHARED}${waits(16)}` });
    assert.deepEqual([outcome.ending, outcome.checked, outcome.script], ["finished", false, undefined]);
    assert.match(outcome.noScript ?? "", new RegExp("^it has more than 16 threads and waits of Atomics\\.waitAsync "
      + "that are pending at once, which no script can have:"));
  });

  it("with at most 1,000 calls each, as the threads with what they hand over", async (context) => {
    const rounds = (/** @type {number} */ count, how = "", notifies = "") => `
      ${how === "" ? "" : "setTimeout(() => {}, 1e6);"}
      for (let round = 0; round < ${count}; round += 1) {
        const { value } = Atomics.waitAsync(words, 0, 0${how});
        ${notifies}
        await value;
      }`;
    const notified = (/** @type {number} */ count) => "Atomics.notify(words, 0); ".repeat(count);
    // In a round the helper makes three calls, and the thread hands over and back. It has sent a message.
    const { calls } = await onlyRun(context, rounds(333, "", notified(1)));
    assert.deepEqual(calls.map(({ length }) => length), [1_000, 999]);
    for (const main of [rounds(334, ", 1"), rounds(250, "", notified(2))]) {
      const [outcome] = await runsOf(context, { "main.mjs": `${SHARED}${main}` });
      assert.match(outcome.noScript ?? "",
        /^with the calls for Atomics\.waitAsync an agent has more than 1000 calls, which no script/);
    }
  });
});

describe("what texts say about a run with helpers", () => {
  const FILES = {
    "main.mjs": `import { Worker } from "node:worker_threads";
const words = new Int32Array(new SharedArrayBuffer(16));
new MessageChannel().port1.postMessage(words);
new Worker(new URL("./worker.mjs", import.meta.url), { workerData: words });
const { value } = Atomics.waitAsync(words, 0, 0);
words[2] = 5;
await value;
words[2] += 1;
Atomics.store(words, 3, 1);
throw new Error("mine");`,
    "worker.mjs": `${WORKER}const { value } = Atomics.waitAsync(words, 1, 0);\nwhile (Atomics.notify(words, 0) === 0);`,
  };

  it("names them and their threads, and puts each step where it was made", async (context) => {
    const [outcome] = await runsOf(context, FILES);
    assert.equal(outcome.checked, true);
    assert.deepEqual(outcome.threads, ["", "worker.mjs, started at main.mjs:4:1"]);
    const { output } = simulated(["replay", "--format", "json"], outcome.script ?? "");
    const lines = wordsText(output, outcome, "file:///main.mjs").split("\n");
    const mine = JSON.parse(outcome.script ?? "")
      .views.flatMap(({ name }) => /^waitAsync_(\d)_of_0$/.exec(name)?.slice(1) ?? []);
    assert.equal(mine.length, 1);
    assert.ok(lines.includes(`agent ${mine[0]}: waitAsync of agent 0 (main.mjs)`));
    assert.ok(lines.includes(`agent ${5 - mine[0]}: waitAsync of agent 1 (worker.mjs, started at main.mjs:4:1)`));
    const own = lines.map((line) => line.replace(/^\S+ /, ""))
      .filter((line) => line.startsWith("0 ") || line.startsWith(`${mine[0]} `));
    const words = own.map((line) => line.replace(`${mine[0]} `, "H ").replace(`agent ${mine[0]}`, "agent H")
      .replace(/woken by \d+/, "woken").replace(/:\d+$/, ""));
    assert.deepEqual(words.filter((line) => !/message|^0 1 of|: /.test(line) || /words|b0\[2\]/.test(line)), [
      "0 hands its waitAsync to agent H, at main.mjs:5",
      "H takes the waitAsync of agent 0, at main.mjs:5",
      "H wait(Int32_b0, 0, 0) waits at Int32_b0[0], first in line, at main.mjs:5",
      "0 writes Int32_b0[2], without Atomics: changes Int32_b0[2] from 0 to 5, at main.mjs:6",
      "H wait(Int32_b0, 0, 0) was woken",
      "H hands back the waitAsync of agent 0",
      "0 gets the end of its waitAsync from agent H",
      "0 reads Int32_b0[2], which is 5, without Atomics, at main.mjs:8",
      "0 writes Int32_b0[2], without Atomics: changes Int32_b0[2] from 5 to 6, at main.mjs:8",
      "0 store(Int32_b0, 3, 1) changes Int32_b0[3] from 0 to 1, at main.mjs:9",
    ]);
    const data = runDataOf(outcome, output, "file:///main.mjs");
    assert.deepEqual([data.agents, data.threads?.length, data.senders?.[0]], [4, 4, 0]);
  });

  it("shows them on the page, where each agent's steps stay in their order in another schedule", async (context) => {
    const [outcome] = await runsOf(context, FILES);
    const { output } = simulated(["replay", "--format", "json"], outcome.script ?? "");
    const data = runDataOf(outcome, output, "file:///main.mjs");
    const run = new Run(data);
    assert.ok(run.steps.some(({ place }) => place >= 0));
    const report = readReport(output);
    // What the page makes of any schedule, of the one that was recorded.
    const again = new Run(changedData(data, JSON.parse(outcome.script ?? ""), report));
    const stepsOf = ({ steps }) => data.threads?.map((_, own) => steps
      .filter(({ agent, what }) => agent === own && what !== "task")
      .map(({ text, place }) => `${text}, at ${data.places[place]}`));
    assert.deepEqual(stepsOf(again), stepsOf(run));
    const [first] = stepsOf(run) ?? [];
    const [at, back, read] = ["hands its waitAsync to", "gets the end of its waitAsync from", "reads"].map((text) =>
      first.findIndex((line) => line.startsWith(text)));
    assert.ok(at >= 0 && at < back && back < read);
    const pending = report.agents.find(({ standing }) => standing?.at === "waits")?.agent;
    assert.match(run.steps.at(-1)?.sentence ?? "",
      new RegExp(`Agent ${pending} \\(waitAsync of agent 1\\) waits at Int32_b0\\[1\\] since`));
  });
});

it("a deadlock's step on the page is the wait of a thread", async (context) => {
  const [outcome] = await runsOf(context, {
    "main.mjs": `${mainWith(16)}started();
      setTimeout(() => Atomics.waitAsync(words, 1, 0), 5_000);`,
    "worker.mjs": `${WORKER}Atomics.wait(words, 0, 0);`,
  }, { options: { timeouts: 0 } });
  assert.deepEqual([outcome.ending, outcome.checked], ["deadlock", true]);
  const { steps, failing } = new Run(runDataOf(outcome,
    simulated(["replay", "--format", "json"], outcome.script ?? "").output, "file:///main.mjs"));
  assert.deepEqual(failing.map((at) => [steps[at].agent, steps[at].text]), [[1, "wait(Int32_b0, 0, 0)"]]);
  assert.ok(steps.slice(failing[0]).some(({ text }) => text === "wait(Int32_b0, 1, 0)"));
});

describe("programs of the table that use waitAsync", () => {
  const isOne = ({ main }) => main.startsWith("wait-async/");
  const SLEEPERS = /** @type {any} */ ({ main: "order/wait-async-sleepers.mjs", name: "order/wait-async-sleepers" });
  /** @type {TableRuns} */
  let runs;
  before(async () => { runs = await TableRuns.open(); });
  after(() => runs.close());

  for (const program of [...PROGRAMS.filter(isOne), SLEEPERS]) {
    it(`${program.name}: sabsim replays each of ${SEEDS} runs, and judges it as the recorder does`, async () => {
      assert.match(readFileSync(urlOf(program), "utf8"), /Atomics\.waitAsync/);
      const outcomes = await runs.runs(program, { last: SEEDS, areWhole: true });
      assert.deepEqual([...new Set(outcomes.map(({ checked, noScript }) => `${checked} ${noScript}`))],
        ["true undefined"]);
      assert.ok(outcomes.some(({ script }) => /waitAsync_\d+_of_0/.test(script ?? "")));
    });
  }
});
