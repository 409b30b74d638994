// What fills the buffers before a run, and what is checked after it: `init` and `check`, as exports of the agents'
// module and as options of the library.

import assert from "node:assert/strict";
import { readFileSync, readdirSync, writeFileSync } from "node:fs";
import { join } from "node:path";
import { describe, it } from "node:test";
import { Refused, explore, record } from "../../recorder.mjs";
import { commandHere } from "../helpers/command-here.mjs";
import { agentsPath, moduleOf, temporaryFolder } from "../helpers/common.mjs";
import { CHECKER, CHECKING } from "../helpers/needs.mjs";
import { different, recorded, seedsTo } from "../helpers/recorded.mjs";
import { simulated } from "../helpers/simulate.mjs";

/** Without pilots, which would take twice as many workers; and no worker begins that isn't needed. */
const SMALL = { agents: 2, everywhere: true };

/** A program of `agents/checked.mjs`. */
const program = (name, options = {}) => ({ module: agentsPath("checked"), args: [name], ...SMALL, ...options });

// Where the number of agents is given, no worker begins that isn't needed.
describe("init and check", { concurrency: 2 }, () => {
  it("one line of `check` finds a lost update: a run fails exactly if the count is wrong", async () => {
    const outcomes = await recorded(program("lost"), seedsTo(20));
    assert.deepEqual(different(outcomes, "ending"), ["check", "finished"]);
    for (const { ending, fails, detail, bytes, races, script } of outcomes) {
      const isRight = bytes[0].startsWith("02000000");
      assert.deepEqual([ending, fails], isRight ? ["finished", false] : ["check", true]);
      if (isRight) assert.equal(detail, "");
      else assert.match(detail, /^check threw Error: counted to 1\n +at .*checked\.mjs/);
      assert.deepEqual(races, []);
      assert.equal(JSON.parse(script).agents.length, 2);
    }
  });

  it("a run that fails by its check is kept, and replays", async (context) => {
    const out = temporaryFolder(context);
    const small = ["--agents", "2", "--everywhere"];
    const words = [agentsPath("checked"), ...small, "--seeds", "1..20", "--out", out, ...CHECKING, "--", "lost"];
    const { status, stdout } = await commandHere(words);
    assert.equal(status, 1);
    const [, seed] = /^first failing seed: (\d+), check failed\n {2}check threw Error: counted to 1$/m.exec(stdout);
    const kept = (ending) => readFileSync(join(out, `seed-${seed}.${ending}`), "utf8");
    assert.deepEqual(readdirSync(out).sort(), [
      "explained", "html", "json", "original.json", "original.report", "original.trace.jsonl", "report", "svg",
      "trace.jsonl",
    ].map((ending) => `seed-${seed}.${ending}`));
    assert.equal(simulated(["replay"], kept("json")).output, kept("report"));
  });

  it("the stores of init come first in each run, by an extra agent", async () => {
    const outcomes = await recorded(program("filled", { everywhere: false }), seedsTo(3));
    for (const { ending, detail, script, bytes, answers, progress, calls } of outcomes) {
      assert.deepEqual([ending, detail], ["finished", ""]);
      const { agents, schedule } = JSON.parse(script);
      assert.equal(agents.length, 3);
      // Words that aren't zero; and bytes where no word is whole.
      const stores = [
        ["store", "init_Int32_b0", 1, 10], ["store", "init_Int32_b1", 0, 1], ["store", "init_Uint8_b1", 6, 1],
      ];
      assert.deepEqual(agents[2].calls, stores);
      assert.deepEqual(schedule.slice(0, 9), Array(9).fill(2));
      assert.ok(!schedule.slice(9).includes(2));
      assert.deepEqual(bytes, ["000000000c000000", "01000000000001"]);
      assert.deepEqual(answers.flat().sort(), ["10", "11"]);
      assert.deepEqual([progress.length, calls], [2, 2]);
    }
  });

  it("if the stores of init don't all fit, the script has those on which calls depend", async () => {
    const [outcome] = await recorded(program("large", { buffers: [65_536] }));
    assert.deepEqual([outcome.ending, outcome.scriptHolds], ["finished", "touched"]);
    assert.deepEqual(outcome.answers.flat().sort(), [0x07070707, 0x07070708].map(String));
    assert.equal(outcome.bytes[0], `${"07".repeat(12)}09070707${"07".repeat(65_536 - 16)}`);
  });

  it("a run whose init throws has failed, whatever was before it, and the next one begins", async () => {
    const outcomes = await recorded(program("begins"), seedsTo(3));
    const [first, second, third] = outcomes.map(({ ending }) => ending);
    assert.deepEqual([first, second, third], ["deadlock", "failed", "deadlock"]);
    assert.match(outcomes[1].detail, /^init threw TypeError: not thrice\n/);
    assert.deepEqual([outcomes[1].calls, outcomes[1].moves, outcomes[1].answers], [0, 0, [[], []]]);
    assert.equal(outcomes[2].bytes[0], outcomes[0].bytes[0]);
  });

  it("a failed check goes before a race, and the outcome has the races too", async () => {
    const [outcome] = await recorded(program("races"));
    assert.deepEqual([outcome.ending, outcome.fails], ["check", true]);
    assert.equal(outcome.detail, 'check threw "no Error"');
    assert.equal(outcome.races.length, 1);
    // The library's own goes before the module's; and where it passes the race is what is left.
    const [passed] = await recorded(program("races", { check() {} }));
    assert.deepEqual([passed.ending, passed.races.length], ["race", 1]);
    const what = /^agent 0 writes Int32_b0\[1\] at checked\.mjs:\d+:\d+, before its call 0; agent 1 writes /;
    assert.match(passed.detail, what);
  });

  it("a run that hasn't finished isn't checked", async () => {
    const outcomes = await recorded(program("ends", { trace: true, maxMoves: 100 }), seedsTo(4));
    assert.deepEqual(outcomes.map(({ ending }) => ending), ["deadlock", "failed", "failed", "limit"]);
    assert.match(outcomes[2].detail, /^no agent has made a call of Atomics/);
  });

  it("a check that doesn't end fails its run, and the next one begins", async () => {
    const outcomes = await recorded(program("loops", { seconds: 0.5, trace: true }), [1, 2]);
    assert.deepEqual(outcomes.map(({ ending, fails }) => [ending, fails]), [["check", true], ["check", true]]);
    for (const { detail } of outcomes) assert.equal(detail, "check didn't come to its end: it went on for 0.5 s");
  });

  it("a check that doesn't end isn't called once more for the trace of its run", async (test) => {
    const path = moduleOf(test, `
      import { appendFileSync } from "node:fs";
      export const setup = { agents: 2, buffers: [4] };
      export default ({ buffers: [buffer] }) => Atomics.add(new Int32Array(buffer), 0, 1);
      export const check = ([buffer], { args: [file] }) => {
        appendFileSync(file, "called");
        for (;;);
      };
    `);
    const called = `${path}.called`;
    const [{ ending, trace }] = await recorded({ module: path, args: [called], seconds: 0.5, ...SMALL }, [1]);
    assert.deepEqual([ending, readFileSync(called, "utf8")], ["check", "called"]);
    assert.equal(trace.trimEnd().split("\n").length, 2);
  });

  it("an init or a check that isn't synchronous fails its run: nobody awaits what comes of it", async () => {
    const outcomes = await recorded(program("unfinished", { trace: true }), seedsTo(4));
    const place = "\n    at checked.mjs:4:3";
    assert.deepEqual(outcomes.map(({ ending, fails, detail }) => [ending, fails, detail]), [
      ["check", true, `check returned a promise, but it must be synchronous${place}`],
      ["check", true, `check goes on later, by a promise, but it must be synchronous${place}`],
      ["check", true, "check returned an iterator, whose code nobody runs: it is a generator"],
      ["failed", true, `init returned a promise, but it must be synchronous${place}`],
    ]);
  });

  it("a check that returns false or an error, in place of throwing it, fails the run too", async (test) => {
    const path = moduleOf(test, `
      export const setup = { agents: 1, buffers: [4] };
      export default ({ buffers: [buffer] }) => Atomics.store(new Int32Array(buffer), 0, 7);
      export const check = ([buffer], { args: [what] }) =>
        (what === "error" ? new RangeError("lost") : new Int32Array(buffer)[0] === Number(what));
    `);
    const cases = [["7", "finished", ""], ["8", "check", "check returned false"],
      ["error", "check", "check returned RangeError: lost"]];
    const how = { module: path, agents: 1, sabsim: CHECKER };
    for (const [what, ending, detail] of cases) {
      const outcome = await record({ ...how, args: [what] });
      assert.deepEqual([outcome.ending, outcome.detail], [ending, detail]);
    }
    const outcome = await record({ ...how, args: ["7"], check: () => false });
    assert.deepEqual([outcome.ending, outcome.detail], ["check", "check returned false"]);
  });

  it("a CommonJS module has them as properties of its function; setup has no other member", async (test) => {
    const folder = temporaryFolder(test);
    const path = join(folder, "agents.cjs");
    const write = (setup) => writeFileSync(path, `
      const agent = ({ buffers: [buffer] }) => Atomics.add(new Int32Array(buffer), 0, 1);
      agent.setup = ${setup};
      agent.init = ([buffer]) => new Int32Array(buffer).fill(3);
      agent.check = ([buffer]) => { throw new Error(String(new Int32Array(buffer)[0])); };
      module.exports = agent;
    `);
    write("{ agents: 2, buffers: [4] }");
    const outcome = await record({ module: path, sabsim: CHECKER, ...SMALL });
    assert.equal(outcome.ending, "check");
    assert.match(outcome.detail, /^check threw Error: 5\n/);
    const wrong = { block: /`setup` can't have a member block: is noBlock meant\?$/,
      count: /`setup` can't have a member count: there are agents, buffers, noBlock, names$/ };
    for (const [name, refused] of Object.entries(wrong)) {
      write(`{ agents: 2, buffers: [4], ${name}: [0] }`);
      await assert.rejects(record({ module: path, agents: 1, sabsim: CHECKER }), refused);
    }
  });

  it("a name that is nearly one of a module's exports is refused, and another one isn't", async (test) => {
    const path = join(temporaryFolder(test), "agents.mjs");
    const agent = "export default ({ buffers: [buffer] }) => Atomics.add(new Int32Array(buffer), 0, 1);";
    const write = (more) => writeFileSync(path, `${agent}\n${more}`);
    const recordIt = () => record({ module: path, agents: 1, buffers: [4], sabsim: false });
    const near = { Check: "check", checks: "check", chekc: "check", Init: "init", SETUP: "setup", set_up: "setup" };
    for (const [name, meant] of Object.entries(near)) {
      write(`export const ${name} = () => false;`);
      const why = `the module exports \`${name}\`: is \`${meant}\` meant? (the recorder uses only the exports ` +
        "default, setup, init, check; give it another name if not)";
      await assert.rejects(recordIt(), (error) => error instanceof Refused && error.message === why);
    }
    const others = ["unit", "int", "checker", "settings", "initial", "agents"];
    // If any of them were refused, the error would name it.
    write(others.map((name) => `export const ${name} = () => false;`).join("\n"));
    assert.equal((await recordIt()).ending, "finished");
    write("export const check = () => true;\nexport const checks = [1];");
    assert.equal((await recordIt()).ending, "finished");
  });

  it("a setup that is no plain data is refused, and the message names the member that isn't", async (test) => {
    const path = join(temporaryFolder(test), "agents.mjs");
    const refusals = {
      "() => ({ agents: 2 })": /`setup` must be plain data, .*, but it is a function$/m,
      "{ agents: () => 2, buffers: [4] }": /`setup` must be plain data, .*, but its member agents is a function$/m,
      "{ agents: 2, buffers: [() => 4] }": /plain data, .*, but its member buffers has something else in it$/m,
      5: /^`setup` must be an object, as /,
    };
    for (const [setup, message] of Object.entries(refusals)) {
      writeFileSync(path, `export const setup = ${setup};\nexport default () => {};`);
      await assert.rejects(record({ module: path, agents: 1, sabsim: false }), { constructor: Refused, message });
    }
  });

  it("so does one that the library is given, and what it rejects harms nobody", async () => {
    const rejects = async () => {
      throw new Error("nobody sees this");
    };
    const checks = [rejects, function* never() {
      throw new Error("nobody asks for it");
    }, () => {}];
    const options = { init: () => (checks.length === 1 ? rejects() : undefined), check: () => checks.shift()() };
    const module = agentsPath("three-state-mutex");
    const outcomes = await recorded({ module, trace: true, ...SMALL, agents: 3, ...options }, seedsTo(3));
    assert.deepEqual(outcomes.map(({ ending, fails }) => [ending, fails]), [
      ["check", true], ["check", true], ["failed", true],
    ]);
    for (const { detail } of outcomes) assert.match(detail, /^(check|init) returned /);
  });

  it("init and check have the module's variables to themselves, and new ones with `fresh`", async (context) => {
    const module = moduleOf(context, `
      let kept = 0;
      export const setup = { agents: 2, buffers: [8] };
      export const init = ([buffer], { args: [each] }) => { kept += Number(each); };
      export default ({ buffers: [buffer], agent }) => Atomics.store(new Int32Array(buffer), agent, kept);
      export const check = ([buffer]) => kept === 4 && new Int32Array(buffer).every((word) => word === 0);
    `);
    for (const everywhere of [true, false]) {
      for (const [fresh, wanted] of [[false, ["finished", "check"]], [true, ["finished", "finished"]]]) {
        const endings = [];
        const own = { module, agents: 2, everywhere, args: ["4"], seeds: 2, fresh, sabsim: CHECKER };
        for await (const { ending } of explore(own)) endings.push(ending);
        assert.deepEqual(endings, wanted);
      }
    }
  });

  it("what init draws, and the time that it sees, are those of the seed, whatever ran before", async (context) => {
    const module = moduleOf(context, `
      export const setup = { agents: 2, buffers: [16] };
      export const init = ([buffer]) => {
        new Int32Array(buffer).set([Math.random() * 2 ** 31, performance.now(), Date.now() / 1000], 1);
      };
      export default ({ buffers: [buffer] }) => {
        const words = new Int32Array(buffer);
        Atomics.wait(words, 0, 0, 500 * Math.random());
      };
    `);
    for (const everywhere of [true, false]) {
      const all = await recorded({ module, agents: 2, everywhere }, seedsTo(3));
      const [alone] = await recorded({ module, agents: 2, everywhere }, [3]);
      assert.deepEqual(alone.bytes, all[2].bytes);
      assert.notDeepEqual(all[0].bytes, all[2].bytes);
    }
  });

  it("a process that ends in init is said to be its worker's", async (context) => {
    const module = moduleOf(context, `
      export const setup = { agents: 2, buffers: [8] };
      export const init = () => process.exit(3);
      export default ({ buffers: [buffer] }) => Atomics.load(new Int32Array(buffer), 0);
    `);
    const outcomes = await recorded({ module, ...SMALL }, seedsTo(2));
    for (const { ending, detail } of outcomes) {
      assert.equal(ending, "failed");
      assert.match(detail, /^init didn't come to its end: its worker died: .*exit code 3$/);
    }
  });

  it("with 16 agents none is left for the stores of init", async () => {
    const refused = { constructor: Refused, message: /^with 16 agents none is left for the stores of `init`/ };
    await assert.rejects(record(program("lost", { agents: 16, sabsim: false })), refused);
    const others = { module: agentsPath("three-state-mutex"), agents: 16, sabsim: false };
    await assert.rejects(record({ ...others, init() {} }), refused);
    const [outcome] = await recorded(program("filled", { agents: 15, check() {} }));
    assert.equal(outcome.ending, "finished");
    // Five for each agent, and what each adds.
    assert.equal(outcome.bytes[0].slice(8), "5a000000");
    assert.equal(JSON.parse(outcome.script).agents.length, 16);
  });
});
