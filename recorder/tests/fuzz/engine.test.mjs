// The engine's opinion on scripts is sabsim's: on scripts from a fixed seed, and on every example and case with its
// report.

import assert from "node:assert/strict";
import { readdirSync, readFileSync } from "node:fs";
import { after, before, describe, test } from "node:test";
import { Crew, EngineFault } from "../engine/crew.mjs";
import { replay } from "../engine/replay.mjs";
import { summary } from "../engine/report.mjs";
import { readScript, ScriptFault } from "../engine/script.mjs";
import { AskedProcesses } from "../helpers/asked-processes.mjs";
import { nodeThere } from "../helpers/common.mjs";
import { withSignals } from "../helpers/needs.mjs";
import { pathOf, replayBySabsim, start } from "../helpers/programs.mjs";
import { seedsTo } from "../helpers/recorded.mjs";
import { generatedScript, timedScript } from "../helpers/scripts.mjs";

const DATA = pathOf("tests/scripts");
const EXAMPLES = pathOf("examples");
const ENGINE = pathOf("recorder/tests/engine/main.mjs");
const SCRIPTS = 200;
const TIMED_SCRIPTS = 10;

const crew = new Crew();
const opinions = new AskedProcesses("recorder/tests/helpers/opinion-process.mjs", 2);
after(() => {
  opinions.end();
  return crew.end();
});

/** What a script's moves did, as the engine made them. */
async function entriesOf(script) {
  return (await replay(readScript(Buffer.from(JSON.stringify(script))), crew)).entries;
}

describe("generated scripts", () => {
  /** The engine's opinions on the scripts of the seeds from 1 on. */
  function opinionsOn(scriptOf, last) {
    return Promise.all(seedsTo(last).map(async (seed) => {
      const text = JSON.stringify(scriptOf(seed));
      return { seed, text, ...await opinions.ask(text) };
    }));
  }

  /** Sabsim says the same. */
  async function compare(all) {
    await Promise.all(all.map(async ({ seed, text, report }) => {
      const expected = await replayBySabsim(text);
      assert.equal(report, expected, `the engine (actual) and sabsim (expected) differ on the script of seed ${seed}`);
    }));
  }

  let untimed;

  before(async () => {
    untimed = await opinionsOn(generatedScript, SCRIPTS);
  });

  test(`the engine and sabsim answer the same to each of ${SCRIPTS} scripts`, () => compare(untimed));

  test("the scripts have of everything many", () => {
    const seen = new Map();
    for (const line of untimed.flatMap((opinion) => opinion.lines)) seen.set(line, (seen.get(line) ?? 0) + 1);
    const lines = ["wait", "leave ok", "leave timed-out", "act not-equal", "act TypeError", "act RangeError", "act 2"];
    const stuck = ["done", "waiting", "not-waiting", "endless"].map((why) => `stuck ${why}`);
    for (const line of [...lines, ...stuck]) assert.ok(seen.get(line) >= 10, `${line}: ${seen.get(line)}`);
    assert.ok([...seen.keys()].filter((line) => /^act -?\d+n$/.test(line)).length >= 5, "BigInts");
  });

  test(`and to each of ${TIMED_SCRIPTS} in which times end in every order`, async () => {
    await compare(await opinionsOn(timedScript, TIMED_SCRIPTS));
  });
});

describe("scripts with their reports", () => {
  const subjects = readdirSync(DATA, { withFileTypes: true }).filter((entry) => entry.isDirectory());
  const folders = new Map(subjects.map(({ name }) => [name, `${DATA}/${name}`]));
  folders.set("examples", EXAMPLES);
  const read = (folder, name) => readFileSync(`${folders.get(folder)}/${name}`, "utf8");
  const countsOfReports = new Map();

  for (const [folder, path] of folders) {
    const reports = readdirSync(path).filter((name) => name.endsWith(".report"));
    if (reports.length === 0) continue;
    countsOfReports.set(folder, reports.length);
    test(`the engine's reports on ${folder} are the ${reports.length} beside them`, async () => {
      const compare = async (name) => {
        const { report } = await opinions.ask(read(folder, name.replace(".report", ".json")));
        assert.equal(report, read(folder, name), `the engine (actual) differs on ${folder}/${name}`);
      };
      await Promise.all(reports.map(compare));
    });
  }

  test("the examples are among them", () => assert.ok(countsOfReports.get("examples") >= 9));
});

describe("the program", () => {
  const script = readFileSync(`${EXAMPLES}/timed-wait.json`, "utf8");

  /** @param {string[]} words @param {string} [input] */
  const engine = (words, input) => nodeThere([ENGINE, ...words], { input });

  test("writes the report, and counts on standard error the moves that aren't the engine's", async () => {
    const { status, stdout, stderr } = await engine([], script);
    assert.equal(stdout, readFileSync(`${EXAMPLES}/timed-wait.report`, "utf8"));
    const counts = /^engine: node \S+, V8 \S+: \d+ of \d+ moves are the engine's answers; the script's own: .*\n$/;
    assert.match(stderr, counts);
    assert.equal(status, 0);
  });

  test("shows help", async () => {
    const { status, stdout, stderr } = await engine(["--help"]);
    assert.match(stdout, /Usage: node recorder\/tests\/engine\/main\.mjs \[FILE\]/);
    assert.ok(stdout.split("\n").every((line) => line.length <= 120));
    assert.deepEqual([status, stderr], [0, ""]);
  });

  test("reads a script from a file, or from standard input if it is - or missing", async () => {
    const report = readFileSync(`${EXAMPLES}/timed-wait.report`, "utf8");
    for (const [words, input] of [[[`${EXAMPLES}/timed-wait.json`], ""], [["-"], script], [[], script]]) {
      const { status, stdout } = await engine(words, input);
      assert.deepEqual([status, stdout], [0, report], words.join());
    }
  });

  test("names a file that can't be read, with status 3", async () => {
    for (const name of [`${EXAMPLES}/none.json`, EXAMPLES, "/dev/null/none"]) {
      const { status, stdout, stderr } = await engine([name], script);
      assert.ok(stderr.startsWith(`engine: ${name} can't be read: E`), stderr);
      assert.deepEqual([status, stdout, stderr.split("\n").length], [3, "", 2]);
    }
  });

  test("refuses a command line with status 2", async () => {
    const wrong = {
      "--file": /^engine: --file is no option; .*\n$/, "a.json b.json": /^engine: .* one script only; .*\n$/,
    };
    for (const [words, refusal] of Object.entries(wrong)) {
      const { status, stdout, stderr } = await engine(words.split(" "), script);
      assert.match(stderr, refusal);
      assert.deepEqual([status, stdout], [2, ""]);
    }
  });

  test("refuses a script with one line and status 1", async () => {
    const { status, stdout, stderr } = await engine([], "{");
    assert.match(stderr, /^engine: the script is no JSON text in UTF-8.*\n$/);
    assert.deepEqual([status, stdout], [1, ""]);
  });

  test("ends at once when it is killed in a wait", { ...withSignals, timeout: 30_000 }, async () => {
    const moves = [0, 0, ...Array(40_000).fill(0), { timeout: 0 }];
    const calls = [["wait", "w", 0, 0, 1]];
    const views = [{ name: "w", kind: "Int32", offset: 0, length: null }];
    const text = JSON.stringify({ bytes: 4, views, agents: [{ block: true, calls }], schedule: moves });
    const { child, ended } = start(process.execPath, [ENGINE], text);
    await new Promise((resolve) => setTimeout(resolve, 1_000));
    assert.equal(child.exitCode, null);
    child.kill("SIGTERM");
    assert.equal((await ended).signal, "SIGTERM");
  });
});

describe("what isn't the engine's", () => {
  const views = [{ name: "w", kind: "Int32", offset: 0, length: 1 }];

  test("a wait of an agent that can't block is asked for all checks but that one", async () => {
    const calls = [["wait", "w", 0, 0], ["wait", "w", 1, 0], ["wait", "w", 0, "0"], ["wait", "w", 0, 7]];
    const agents = [{ block: false, calls }];
    const entries = await entriesOf({ bytes: 4, views, agents, schedule: Array(12).fill(0) });
    const acts = entries.filter(({ text }) => text.startsWith("act"));
    const errors = ["TypeError", "RangeError", "TypeError", "TypeError"];
    assert.deepEqual(acts.map(({ text }) => text), errors.map((error) => `act ${error}`));
    assert.deepEqual(acts.map(({ isOfEngine }) => isOfEngine), [false, true, true, false]);
  });

  test("it is counted", async () => {
    const agents = [{ block: false, calls: [["wait", "w", 0, 0]] }, { block: true, calls: [["wait", "w", 0, 0]] }];
    const schedule = [0, 0, { timeout: 0 }, 1, 1, 1, { timeout: 1 }];
    const entries = await entriesOf({ bytes: 4, views, agents, schedule });
    assert.equal(
      summary({ entries, blocks: [], returned: [] }),
      "2 of 7 moves are the engine's answers; the script's own: 2 (begin, return), " +
        "2 (stuck done, not-waiting or endless), 1 (a wait of an agent that can't block)",
    );
  });
});

describe("scripts that are none", () => {
  const view = { name: "w", kind: "Int32", block: 0, offset: 0, length: null };
  const agent = { block: true, calls: [["load", "w", 0]] };
  const script = { blocks: [8], views: [view], agents: [agent], schedule: [0] };
  const withCall = (...call) => ({ ...script, agents: [{ block: true, calls: [call] }] });
  const cases = [
    ["null", null],
    ["an array", []],
    ["no schedule", { ...script, schedule: undefined }],
    ["bytes beside blocks", { ...script, bytes: 8 }],
    ["a further member", { ...script, more: 1 }],
    ["no block", { ...script, blocks: [] }],
    ["five blocks", { ...script, blocks: [8, 8, 8, 8, 8] }],
    ["a block that is too long", { ...script, blocks: [65_537] }],
    ["a view on no block", { ...script, views: [{ ...view, block: 1 }] }],
    ["a kind that isn't there", { ...script, views: [{ ...view, kind: "Int64" }] }],
    ["a name twice", { ...script, views: [view, view] }],
    ["a name with a space", { ...script, views: [{ ...view, name: "a b" }] }],
    ["a call that isn't there", withCall("isLockFree", "w", 0)],
    ["a call on no view", withCall("load", "v", 0)],
    ["a call without an operand", withCall("store", "w", 0)],
    ["a call with an operand more", withCall("load", "w", 0, 1)],
    ["a fraction", withCall("store", "w", 0, 0.5)],
    ["a number that is too great", withCall("store", "w", 0, 2 ** 53)],
    ["a BigInt of another spelling", withCall("store", "w", 0, "01")],
    ["a BigInt of too many bits", withCall("store", "w", 0, `${2n ** 127n}`)],
    ["a count that is a BigInt", withCall("notify", "w", 0, "1")],
    ["a timeout that is a BigInt", withCall("wait", "w", 0, 0, "1")],
    ["an agent that doesn't say whether it can block", { ...script, agents: [{ calls: [] }] }],
    ["a move of no agent", { ...script, schedule: [1] }],
    ["the end of nobody's time", { ...script, schedule: [{ timeout: 1 }] }],
    ["a move that is null", { ...script, schedule: [null] }],
  ];
  for (const [name, tree] of cases) {
    test(name, () => assert.throws(() => readScript(Buffer.from(JSON.stringify(tree))), ScriptFault));
  }

  test("a text that isn't UTF-8", () => assert.throws(() => readScript(Buffer.from([0x22, 0xff, 0x22])), ScriptFault));

  test("a view that doesn't fit its block", async () => {
    await assert.rejects(entriesOf({ ...script, views: [{ ...view, offset: 2 }] }), ScriptFault);
  });
});

/** Stands in the place of a worker, and has the answer to a call at once; null where the call goes on. */
class FalseHand {
  isBusy = false;
  answer = null;

  constructor(answerTo) {
    this.answerTo = answerTo;
  }

  send(method) {
    this.answer = this.answerTo(method);
  }

  answered = async () => this.answer;
  settled = async () => this.answer;
}

describe("an engine that does what none may is found", () => {
  const views = [{ name: "w", kind: "Int32", offset: 0, length: null }];
  const waiter = { block: true, calls: [["wait", "w", 0, 0]] };
  const waker = { block: true, calls: [["notify", "w", 0], ["load", "w", 0]] };
  const agents = [waiter, waiter, waker];
  const schedule = [0, 0, 1, 1, 2, 2, 2, 2, 2, 0];

  /** Makes the script with an engine that gives these answers, and whose waiters leave at a notify as `leave` says. */
  function falseEngine(answers, leave = () => {}) {
    const hands = [];
    const answerTo = (method) => {
      if (method === "notify") leave(hands);
      return answers[method];
    };
    const falseCrew = {
      lend(count) {
        hands.splice(0, hands.length, ...Array.from({ length: count }, () => new FalseHand(answerTo)));
        return hands;
      },
      takeBack() {},
    };
    return replay(readScript(Buffer.from(JSON.stringify({ bytes: 4, views, agents, schedule }))), falseCrew);
  }

  const good = { wait: null, notify: { answer: 0 }, load: { answer: 0 } };
  const nobody = () => {};
  const one = (hands) => {
    hands[1].answer = { answer: "ok" };
  };
  const both = (answer) => (hands) => {
    hands[0].answer = hands[1].answer = { answer };
  };
  const cases = [
    ["a wait that returns ok as it begins", { wait: { answer: "ok" } }, nobody, /agent 0's wait answered ok as it/],
    ["a wait that ends by itself", {}, one, /a notify answered 0, and these left their waits: agent 1 with ok$/],
    ["a notify that wakes more than it returns", { notify: { answer: 1 } }, both("ok"), /answered 1, .* agent 1 with/],
    ["a wait that returns an unknown answer", { notify: { answer: 2 } }, both("woken"), /agent 0 with woken/],
    ["a wait whose answer always comes too late", { notify: { answer: 2 } }, both("not-equal"), /again and again/],
    ["an access that throws what none may", { load: { threw: "SyntaxError", message: "?" } }, nobody, /SyntaxError/],
  ];
  for (const [name, answers, leave, message] of cases) {
    test(name, async () => {
      const run = falseEngine({ ...good, ...answers }, leave);
      await assert.rejects(run, (error) => error instanceof EngineFault && message.test(error.message));
    });
  }

  test("an engine that does as it must isn't", async () => {
    const { entries } = await falseEngine(good);
    assert.equal(entries.at(-1).text, "stuck waiting");
  });
});
