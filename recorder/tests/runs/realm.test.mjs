// What agents find around them, and what they do to it: nothing of it may change how a run ends, and what a run
// can't have is reported. Work that goes on later, a patched language, messages, arrays of their own, modules that
// break, stacks that overflow, clocks and random numbers.

import assert from "node:assert/strict";
import { after, before, describe, test } from "node:test";
import { Group } from "../../lib/run/group.mjs";
import { Refused, record } from "../../recorder.mjs";
import { ASKS } from "../agents/deep.mjs";
import { CASE_WORD } from "../helpers/case-word.mjs";
import { Cases } from "../helpers/cases.mjs";
import { agentsIn, fileIn, moduleOf, temporaryFolder } from "../helpers/common.mjs";
import { CHECKER } from "../helpers/needs.mjs";
import { recorded } from "../helpers/recorded.mjs";

const AT_ONCE = 4;

/**
 * Makes something of each of a list, some at a time.
 * @template One, Made
 * @param {One[]} list
 * @param {(one: One) => Promise<Made>} make
 * @returns {Promise<Made[]>}
 */
async function madeOfEach(list, make) {
  const made = [];
  let next = 0;
  const work = async () => {
    while (next < list.length) {
      const at = next;
      next += 1;
      made[at] = await make(list[at]);
    }
  };
  await Promise.all(Array.from({ length: AT_ONCE }, work));
  return made;
}

/** How agents are recorded. With `everywhere` no pilots are made first, which would take twice as many workers. */
const HOW = { agents: 2, buffers: [16], sabsim: false, seconds: 5, everywhere: true };

/**
 * Records agents whose module is written for it.
 * @param {import("node:test").TestContext} context
 * @param {string} text of the module
 * @param {object} [options]
 */
async function recordText(context, text, options = {}) {
  const agents = moduleOf(context, text);
  return record({ ...HOW, module: agents, ...options });
}

/** The same, where only the agent's body is given. */
async function recordBody(context, body, options = {}) {
  const agents = agentsIn(temporaryFolder(context), body);
  return record({ ...HOW, module: agents, ...options });
}

/**
 * Records agents that try one body after the other, in the same workers.
 * @param {import("node:test").TestContext} context
 * @param {{ top?: string, bodies: string[] }} code what stands above the agent, and the bodies, of one line each
 * @param {object} [options]
 * @returns {Promise<{ outcomes: import("../helpers/cases.mjs").CheckedOutcome[], lines: number[] }>} of each body
 */
async function recordBodies(context, { top = "", bodies }, options = {}) {
  const above = `${top}\nconst BODIES = [\n`;
  const agents = moduleOf(context, `${above}${bodies.map((body) => `(words) => { ${body} },\n`).join("")}];
    export default function agent({ buffers }) {
      const words = new Int32Array(buffers[0]);
      BODIES[words[${CASE_WORD}]](words);
    }`);
  const cases = new Cases({ ...HOW, module: agents, ...options });
  context.after(() => cases.close());
  const outcomes = await Promise.all(bodies.map((_, at) => cases.outcomeOf(at)));
  return { outcomes, lines: bodies.map((_, at) => above.split("\n").length + at) };
}

describe("work that goes on later", () => {
  const later = [
    ["what comes after a promise", "Promise.resolve().then(() => { throw new Error('never seen'); });", "a promise"],
    ["what comes after an await", "(async () => { await 5; throw new Error('never seen'); })();", "a promise"],
    ["a loop that awaits", "(async () => { for await (const one of [1]) throw one; })();", "a promise"],
    ["an import", "import('node:fs').then(() => { throw new Error('never seen'); });", "a promise"],
    ["setTimeout", "setTimeout(() => { throw new Error('never seen'); }, 0);", "a timer"],
    ["setInterval", "setInterval(() => { throw new Error('never seen'); }, 1);", "a timer"],
    ["setImmediate", "setImmediate(() => { throw new Error('never seen'); });", "setImmediate"],
    ["queueMicrotask", "queueMicrotask(() => { throw new Error('never seen'); });", "queueMicrotask"],
    ["process.nextTick", "process.nextTick(() => { throw new Error('never seen'); });", "process.nextTick"],
    ["a callback of fs", "fs.readFile('/', () => { throw new Error('never seen'); });", "a callback"],
    ["a promise of fs", "fs.promises.readFile('/').catch(() => { throw new Error('never seen'); });", "a promise"],
    ["a stream of zlib", "zlib.createInflate().on('error', () => {}).end('none of it');", "a stream of zlib"],
    ["a fetch", "fetch('data:,a').then(() => { throw new Error('never seen'); });", "a fetch"],
    ["a callback of crypto", "crypto.randomBytes(4, () => { throw new Error('never seen'); });", "a callback"],
    ["a callback of dns", "dns.lookup('localhost', () => { throw new Error('never seen'); });", "a callback"],
  ];
  // Of timers it is known at the end alone whether they were cleared, and of crypto whether a callback gets the bytes.
  const UNPLACED = ["setTimeout", "setInterval", "setImmediate", "a callback of crypto"];
  const IMPORTS = `
    import crypto from "node:crypto";
    import dns from "node:dns";
    import fs from "node:fs";
    import zlib from "node:zlib";
    import { MessageChannel, Worker, receiveMessageOnPort } from "node:worker_threads";`;
  const call = "Atomics.add(words, 1, 1);";

  test("fails the run, before a call and after the last one, and the run says what goes on", async (context) => {
    const all = later.flatMap(([name, body, word]) =>
      [`${body} ${call}`, `${call} ${body}`].map((both) => [name, both, word]));
    const { outcomes, lines } = await recordBodies(context, { top: IMPORTS, bodies: all.map(([, body]) => body) });
    outcomes.forEach(({ ending, detail }, at) => {
      const [name, , word] = all[at];
      assert.equal(ending, "failed", name);
      const [what, place] = detail.split("\n    at ");
      assert.equal(what, `agent 0 goes on later, by ${word}, but an agent must be synchronous`, name);
      if (UNPLACED.includes(name)) assert.equal(place, undefined, name);
      else assert.match(place, new RegExp(`^agents\\.mjs:${lines[at]}:\\d+$`), name);
    });
  });

  test("is reported of an agent that is a generator or asynchronous itself", async (context) => {
    const kinds = [
      ["function* agent() { throw new Error('never seen'); }", /^agent 0 returned an iterator, whose code nobody runs/],
      ["async function* agent() { throw new Error('never seen'); }", /^agent 0 returned an iterator/],
      ["async function agent() {}", /^agent 0 returned a promise, but an agent must be synchronous$/],
      ["() => ({ then() {} })", /^agent 0 returned a promise/],
    ];
    for (const [agent, detail] of kinds) {
      const outcome = await recordText(context, `export default ${agent}`, { agents: 1 });
      assert.equal(outcome.ending, "failed", agent);
      assert.match(outcome.detail, detail, agent);
    }
  });

  test("a promise that is rejected, and that nobody handles, fails the run", async (context) => {
    const bodies = [
      "(async () => { Atomics.add(words, 1, 1); throw new Error('mine'); })();",
      "Atomics.add(words, 1, 1); Promise.reject(new Error('mine'));",
    ];
    const { outcomes } = await recordBodies(context, { bodies });
    outcomes.forEach(({ ending, detail }, at) => {
      assert.equal(ending, "failed", bodies[at]);
      assert.match(detail, /^agent 0 left a rejected promise, which nobody handles: Error: mine\n/);
    });
  });

  test("what a listener of an EventTarget throws fails the run, and is reported", async (context) => {
    const listen = "const target = new EventTarget(); target.addEventListener('go', (event) => { BODY });";
    const bodies = [
      `${listen.replace("BODY", "throw new RangeError('mine');")} target.dispatchEvent(new Event('go')); ${call}`,
      `${call} ${listen.replace("BODY", "null.none;")} try { target.dispatchEvent(new Event('go')); } catch {}`,
      `${call} ${listen.replace("BODY", "throw 5;")} target.dispatchEvent(new Event('go'));`,
    ];
    const quiet = `${listen.replace("BODY", "Atomics.add(words, 0, 1);")} target.dispatchEvent(new Event('go'));`;
    const { outcomes } = await recordBodies(context, { bodies: [...bodies, quiet] });
    assert.equal(outcomes.pop().ending, "finished");
    const thrown = [/: RangeError: mine\n +at .*agents\.mjs:\d+:\d+/, /: TypeError: Cannot read [^\n]*\n +at /, /: 5$/];
    outcomes.forEach(({ ending, detail }, at) => {
      assert.equal(ending, "failed", bodies[at]);
      assert.ok(detail.startsWith("agent 0 has a listener that threw, which nobody catches: "), detail);
      assert.match(detail, thrown[at]);
    });
  });

  test("what has done all of its work at once is no failure", async (context) => {
    const bodies = [
      "(async () => { Atomics.add(words, 0, 1); })();",
      "new Promise((done) => done(Atomics.add(words, 0, 1)));",
      "zlib.gzipSync('text'); fs.readdirSync('/'); crypto.createHash('sha1').update('text').digest();",
      "const { port1, port2 } = new MessageChannel(); port2.postMessage(1); receiveMessageOnPort(port1);",
      "console.log(`to standard error`); structuredClone({ a: 1 });",
      "clearTimeout(setTimeout(() => {}, 5)); clearInterval(setInterval(() => {}, 5));",
      "clearImmediate(setImmediate(() => {}));",
      "new Worker('0', { eval: true }).unref();",
      "new Headers({ a: 'b' }); new FormData(); if (typeof Response !== 'function') throw 5;",
      "new Response(); new Request('http://localhost/'); new Headers();",
      "for (const end of ['inflate', 'gunzip', 'unzip', 'brotliDecompress']) " +
        "try { zlib[`${end}Sync`](Buffer.from('none of it')); } catch (error) { if (!error.code) throw error; }",
    ];
    const code = { top: IMPORTS, bodies: bodies.map((body) => `${body} ${call}`) };
    const { outcomes } = await recordBodies(context, code, { agents: 1 });
    outcomes.forEach(({ ending, detail }, at) => assert.deepEqual([ending, detail], ["finished", ""], bodies[at]));
  });
});

describe("a patched language", () => {
  const GLOBALS = [
    "Int32Array", "Uint8Array", "BigInt64Array", "Error", "TypeError", "RangeError", "Map", "WeakMap", "Proxy",
    "Symbol", "String", "Number", "BigInt", "Array", "Object", "Promise", "Math", "JSON", "Reflect",
    "SharedArrayBuffer", "ArrayBuffer", "DataView", "Buffer", "TextEncoder", "performance", "process",
  ];

  /**
   * What is reported about some runs under a patch, which the same workers make. The simulator checks each.
   * @param {[what: string, when: string, how: string]} patch
   * @param {number} count how many cases the agents try
   * @param {object} [others] options; with pilots twice as many workers are needed
   */
  async function patched([what, when, how], count, others = {}) {
    const agents = new URL("../agents/patched.mjs", import.meta.url);
    agents.search = new URLSearchParams({ what, when, how });
    const cases = new Cases({ module: agents, agents: 3, seed: 7, everywhere: true, trace: true, ...others });
    const outcomes = await cases.outcomesOfAll(count);
    return outcomes.map(({ trace, races, failure, ...outcome }) => {
      // The stack of an error has the module's name, and the code may have patched what makes it.
      return { ...outcome, failure: failure?.message, detail: outcome.detail.split("\n")[0] };
    });
  }

  const NOTHING = ["nothing", "top", "throws"];
  const WITH_PILOTS = { everywhere: false };
  const FUNCTIONS = ["top", "agent"].flatMap((when) => ["throws", "lies"].map((how) => ["functions", when, how]));
  /** How the module's agents end, in the order of its cases, and what is said about it. */
  const ENDS = {
    finished: "", deadlock: "waits at byte 20", failed: "threw Error: as it must be",
    refused: "Atomics.waitAsync",
    later: "goes on later, by setImmediate",
  };

  const allEnds = (others) =>
    madeOfEach([NOTHING, ...FUNCTIONS], (patch) => patched(patch, Object.keys(ENDS).length, others));
  /** @type {Map<object, ReturnType<typeof allEnds>>} by their options */
  const made = new Map();

  /** The runs of all ends, without any patch and then under each of functions. The tests share them. */
  function runsOf(others) {
    if (!made.has(others)) made.set(others, allEnds(others));
    return made.get(others);
  }

  /** Under each patch of functions a run ends as it does without any. */
  async function demandSame(end, others) {
    const at = Object.keys(ENDS).indexOf(end);
    const [expected, ...outcomes] = (await runsOf(others)).map((runs) => runs[at]);
    assert.equal(outcomes.length, FUNCTIONS.length);
    outcomes.forEach((outcome, which) => assert.deepEqual(outcome, expected, FUNCTIONS[which].join(" ")));
    assert.ok(expected.detail.includes(ENDS[end]), expected.detail);
    assert.equal(expected.checked, true);
    return expected;
  }

  const STORES_ONLY = { ordinary: "store" };
  for (const end of Object.keys(ENDS)) {
    test(`no function that is patched changes a run, with the end ${end}`, async () => {
      await demandSame(end, WITH_PILOTS);
    });

    test(`nor if ordinary reads and writes aren't seen, with the end ${end}`, async () => {
      const { ending } = await demandSame(end, STORES_ONLY);
      if (end === "finished") assert.equal(ending, "finished");
    });
  }

  test("no global that is replaced while the module is loaded changes a run", async () => {
    // The threads of an agent alone begin as others do.
    const [[expected], ...outcomes] = await madeOfEach(["nothing", ...GLOBALS], (name) =>
      patched([name, "top", "throws"], 1, { agents: 1 }));
    assert.deepEqual([expected.ending, outcomes.length], ["finished", GLOBALS.length]);
    outcomes.forEach(([outcome], at) => assert.deepEqual(outcome, expected, GLOBALS[at]));
  });

  test("no global that is replaced while agents run changes a run", async () => {
    const [expected, outcomes] = await madeOfEach(["nothing", GLOBALS.join()], (names) =>
      patched([names, "one", "throws"], GLOBALS.length));
    assert.equal(outcomes.length, GLOBALS.length);
    outcomes.forEach((outcome, at) => assert.deepEqual(outcome, expected[at], GLOBALS[at]));
  });

  test("all globals that are replaced at once change no run, where pilots are made too", async () => {
    const all = await patched([GLOBALS.join(), "top", "throws"], Object.keys(ENDS).length, WITH_PILOTS);
    const [expected] = await runsOf(WITH_PILOTS);
    assert.deepEqual(all, expected);
  });
});

test("messages to the thread that started the worker change nothing", async (context) => {
  const text = (top, body) => `
    import { parentPort } from "node:worker_threads";
    ${top}
    export default function agent({ buffers, agent }) {
      ${body}
      Atomics.add(new Int32Array(buffers[0]), agent, 1);
    }`;
  const messages = ["hello", null, undefined, { finished: true }, { failed: "no" }, { ready: true }, { ended: "no" }];
  const posts = messages.map((message) => `parentPort.postMessage(${JSON.stringify(message)});`).join(" ");
  const options = { sabsim: CHECKER };
  const expected = await recordText(context, text("", ""), options);
  assert.equal(expected.ending, "finished");
  const cases = [["", "parentPort.close();"], ["parentPort.on('close', () => {});", ""]];
  const outcomes = await madeOfEach(cases, ([top, body]) => recordText(context, text(top, body), options));
  for (const outcome of outcomes) assert.deepEqual(outcome, expected);
  // Nobody takes them, which is no pass, and else they change nothing.
  const named = [
    [["", posts], /^agent 0 calls parentPort\.postMessage at agents\.mjs:5:18, but nobody takes its messages: /],
    // The first one stands for all.
    [[posts, ""], /^agent 0 calls parentPort\.postMessage at agents\.mjs:3:16, but nobody .+\nagent 1 calls .+$/],
    [["parentPort.on('message', () => {});", ""],
      /^agent 0 listens for messages, by parentPort\.on at agents\.mjs:3:16, /],
  ];
  const failing = await madeOfEach(named, ([[top, body]]) => recordText(context, text(top, body), options));
  failing.forEach(({ ending, detail, state, calls, progress }, at) => {
    const [[top], why] = named[at];
    assert.equal(ending, "failed");
    assert.match(detail, why);
    if (top === "") return;
    assert.deepEqual([state.shown, calls, progress], [expected.state.shown, expected.calls, expected.progress]);
  });
});

describe("arrays of the program's own", () => {
  /** What a body returns in one agent, which throws it as the message of an error. */
  async function returnedBy(context, body, options = {}) {
    const outcome = await recordBody(context, `
      const words = new Int32Array(buffers[0]);
      Atomics.add(words, 0, 1);
      const returned = (() => { ${body} })();
      throw new Error("returned " + JSON.stringify(returned));`, { agents: 1, unrecorded: "allow", ...options });
    const [, returned] = /^agent 0 threw Error: returned (.*)$/m.exec(outcome.detail) ?? assert.fail(outcome.detail);
    return { returned: JSON.parse(returned), outcome };
  }

  for (const buffer of ["ArrayBuffer", "SharedArrayBuffer"]) {
    test(`calls on a ${buffer} get the standard's answers, and aren't recorded`, async (context) => {
      const { returned, outcome } = await returnedBy(context, `
        const own = new Int32Array(new ${buffer}(16));
        const bigs = new BigInt64Array(new ${buffer}(16));
        const answers = [
          Atomics.add(own, 0, 5), Atomics.load(own, 0), Atomics.sub(own, 0, 7), Atomics.exchange(own, 0, 9.7),
          Atomics.compareExchange(own, 0, 9, "4"), Atomics.or(own, 0, 3), Atomics.and(own, 0, 6),
          Atomics.xor(own, 0, 1), Atomics.store(own, 1, -0.5), Atomics.notify(own, 0),
          String(Atomics.add(bigs, 1, 2n ** 64n + 3n)), own[0], String(bigs[1]),
        ];
        for (const wrong of [() => Atomics.load(own, 4), () => Atomics.add(new Float64Array(1), 0, 1)]) {
          try {
            answers.push(wrong());
          } catch (error) {
            answers.push(error.name);
          }
        }
        return answers;`);
      // 5, 5-7 = -2, 9, 4, 4|3 = 7, 7&6 = 6, 6^1 = 7; -0.5 is stored, and answered, as 0.
      assert.deepEqual(returned, [0, 5, 5, -2, 9, 4, 7, 6, 0, 0, "0", 7, "3", "RangeError", "TypeError"]);
      assert.deepEqual(outcome.answers, [["0"]]);
      assert.deepEqual([outcome.calls, outcome.moves], [1, 3]);
    });
  }

  test("who sleeps by a wait on one takes the run's time alone", async (context) => {
    const began = performance.now();
    const { returned, outcome } = await returnedBy(context, `
      const [from, hour] = [performance.now(), 3_600_000];
      const own = new Int32Array(new SharedArrayBuffer(4));
      return [Atomics.wait(own, 0, 0, hour), Atomics.wait(own, 0, 1, hour), performance.now() - from >= hour];`,
    { unrecorded: "fail" });
    assert.deepEqual(returned, ["timed-out", "not-equal", true]);
    assert.deepEqual(outcome.answers, [["0"]]);
    assert.ok(performance.now() - began < 3_600_000);
  });

  test("with the machine's clock a wait on one really waits, and a worker of its own may wake it", async (context) => {
    const outcome = await recordText(context, `
      import { Worker } from "node:worker_threads";
      const own = new Int32Array(new SharedArrayBuffer(8));
      const code = "const { workerData: own } = require('node:worker_threads');"
        + "Atomics.wait(own, 1, 0, 100); Atomics.store(own, 0, 1); Atomics.notify(own, 0);";
      export default function agent({ buffers }) {
        Atomics.add(new Int32Array(buffers[0]), 0, 1);
        new Worker(code, { eval: true, workerData: own }).unref();
        const from = Date.now();
        const woken = Atomics.wait(own, 0, 0, 4_000);
        const slept = Atomics.wait(own, 0, 1, 50);
        const time = Date.now() - from;
        throw new Error("returned " + JSON.stringify([woken, slept, time >= 140 && time < 4_000]));
      }`, { agents: 1, clock: "real", unrecorded: "allow", seconds: 10 });
    assert.match(outcome.detail, /^agent 0 threw Error: returned \["ok","timed-out",true\]$/m);
  });

  test("the module may be compiled to CommonJS", async (context) => {
    const agents = fileIn(temporaryFolder(context), "agents.cjs", `"use strict";
      Object.defineProperty(exports, "__esModule", { value: true });
      exports.setup = { agents: 2, buffers: [16] };
      exports.default = function agent({ buffers, agent }) {
        Atomics.add(new Int32Array(buffers[0]), agent, 1);
      };`);
    const outcome = await record({ module: agents, sabsim: false });
    assert.deepEqual([outcome.ending, outcome.bytes], ["finished", ["01000000010000000000000000000000"]]);
  });
});

test("a context of node's vm is refused by name and line, and passes where nothing is watched", async (context) => {
  const text = (top, body) => `import vm from "node:vm";\n${top}\nexport default function agent({ buffers }) {\n${body}
    Atomics.add(new Int32Array(buffers[0]), 0, 1);\n}\n`;
  const inAgent = text("", '  vm.runInNewContext("1 + 1");');
  const { ending, detail } = await recordText(context, inAgent, { agents: 1 });
  assert.equal(ending, "failed");
  assert.match(detail, /vm\.runInNewContext makes a context [^]*--ordinary store lets it pass\n.*agents\.mjs:4:6\b/);
  const loading = text("export const made = vm.createContext({});", "");
  const whileLoaded = recordText(context, loading, { agents: 1 });
  await assert.rejects(whileLoaded, /vm\.createContext makes a context [^]*agents\.mjs:2:\d+/);
  assert.equal((await recordText(context, inAgent, { agents: 1, ordinary: "store" })).ending, "finished");
});

test("a module that breaks while it is loaded is refused with its own error, at once", async (context) => {
  const cases = [
    ["throw new Error('mine');", /Error: mine/],
    ["throw 'mine';", /"mine"/],
    ["throw null;", /null/],
    ["globalThis.process = undefined; throw new Error('mine');", /mine/],
    ["globalThis.Map = undefined; globalThis.Promise = undefined; throw new Error('mine');", /mine/],
    ["Array.prototype[Symbol.iterator] = undefined; throw new Error('mine');", /mine/],
    ["Promise.prototype.then = () => { throw new Error('another'); }; throw new Error('mine');", /mine/],
    ["Error.prototype.toString = () => { throw 'another'; }; throw new TypeError('mine');", /TypeError: mine/],
    ["await Promise.reject(new Error('mine'));", /mine/],
    ["Promise.reject(new Error('mine')); await new Promise((done) => setTimeout(done, 60_000));", /mine/],
    ["setTimeout(() => { throw new Error('mine'); }); await new Promise((done) => setTimeout(done, 60_000));", /mine/],
    ["process.nextTick(() => { throw new Error('mine'); }); await new Promise(() => {});", /mine/],
    ["process.exit(3);", /exit code 3/],
    ["import './nowhere.mjs';", /nowhere\.mjs/],
    ["export const init = 5;", /its export init is no function/],
  ];
  // None of these errors is that it took too long to be loaded.
  const refusals = await madeOfEach(cases, async ([top]) => {
    // One worker at a time loads the module, and the first one breaks.
    const run = recordText(context, `${top}\nexport default function agent() {}\n`, { agents: 1 });
    return run.then(() => "it was run", (error) => error);
  });
  refusals.forEach((error, at) => {
    assert.ok(error instanceof Refused, `${cases[at][0]}: ${error}`);
    assert.match(error.message, cases[at][1]);
  });
});

describe("a stack that overflows in what an agent calls", () => {
  const SEEDS = 60;
  const STEP = 14;

  /** What agent 0 asks for next, and how far from its stack's end, in its own frames; 0: it doesn't. */
  const next = { which: 0, depth: 0 };

  const opened = () => Group.open({
    module: new URL("../agents/deep.mjs", import.meta.url).href, args: [], agents: 3, buffers: [20],
    maxMoves: 100_000, seconds: 2, fresh: false,
    init: ([buffer]) => new Int32Array(buffer).set([next.depth, 0, next.depth > 0 ? next.which : 0], 2),
  });

  /**
   * The outcomes of some seeds.
   * @param {Group} group
   * @param {string} asks what agent 0 asks for
   * @param {(seed: number) => number} depthOf
   */
  async function outcomes(group, asks, depthOf) {
    const found = [];
    next.which = Object.keys(ASKS).indexOf(asks);
    for (let seed = 1; seed <= SEEDS; seed += 1) {
      next.depth = depthOf(seed);
      await group.run([{ seed, whole: true }], (outcome) => found.push(outcome));
    }
    next.depth = 0;
    return found;
  }

  /** The outcomes of the same seeds where agent 0 asks for nothing at its stack's end, whatever it would ask for. */
  let calm;
  /** @type {Group} another one, in which it asks */
  let group;
  before(async () => {
    const other = await opened();
    calm = await outcomes(other, "add", () => 0);
    await other.close();
    group = await opened();
  });
  after(() => group.close());

  for (const asks of Object.keys(ASKS)) {
    test(`leaves nothing to the seeds that come after it: ${asks}`, { timeout: 120_000 }, async () => {
      // Agent 0 has a worker in which nothing was called before.
      await group.replace(0);
      const deep = await outcomes(group, asks, (seed) => (seed % 2 === 1 ? seed * STEP : 0));
      const hasAsked = [];
      deep.forEach((outcome, at) => {
        if (outcome.seed % 2 === 0) assert.deepEqual(outcome, calm[at], `seed ${outcome.seed}`);
        else hasAsked.push(outcome.ending === "failed" || outcome.script.includes(`["${asks}", "Int32", 3`));
      });
      assert.equal(deep.length, SEEDS);
      // Right at the end of the stack nothing can be asked, and far from it all.
      assert.deepEqual([hasAsked[0], hasAsked.at(-1)], [false, true]);
      assert.equal(deep.at(-2).ending, asks === "refuse" ? "failed" : "finished");
    });
  }
});

test("small Buffers have memory of their own, whatever was made before", async (context) => {
  const path = agentsIn(temporaryFolder(context), `
    const made = [Buffer.from("ab"), Buffer.from([1, 2, 3])];
    const found = made.map(({ byteOffset, buffer }) => 10 * byteOffset + buffer.byteLength);
    Atomics.store(new Int32Array(buffers[0]), agent, found[0] + 100 * found[1]);`);
  for (const { bytes } of await recorded({ ...HOW, module: path }, [1, 2])) {
    assert.equal(bytes[0].slice(0, 16), "2e0100002e010000");
  }
});

test("a worker that takes the place of another one begins nothing before it is asked to", async (context) => {
  const path = moduleOf(context, `
    let parts = 0;
    export default function agent({ buffers, agent }) {
      parts += 1;
      if (agent === 0) {
        Atomics.store(new Int32Array(buffers[0]), 0, parts);
        process.exit(3);
      }
    }`);
  const how = { module: path, agents: 2, buffers: [4], maxMoves: 100, everywhere: true };
  const found = await recorded(how, [1, 2, 3, 4, 5]);
  assert.equal(found.length, 5);
  for (const { detail, bytes } of found) {
    assert.match(detail, /^agent 0's worker died: .*exit code 3$/);
    // It is each worker's first part in a run.
    assert.deepEqual(bytes, ["01000000"]);
  }
});

describe("clocks", () => {
  const text = (body) => `
    import { performance as hooks } from "node:perf_hooks";
    import process, { hrtime } from "node:process";
    const number = (value) => Number(value) / 1e6;
    const pair = ([seconds, rest]) => seconds * 1e3 + rest / 1e6;
    export default function agent({ buffers, agent }) {
      const words = new Int32Array(buffers[0]);
      const clocks = () => [
        performance.now(), hooks.now(), Date.now(), new Date().getTime(), +new Date(), Date.parse(Date()),
        pair(process.hrtime()), number(process.hrtime.bigint()), pair(hrtime()), number(hrtime.bigint()),
      ];
      ${body}
    }`;

  /** The times that the agents threw as the message of an error. */
  function timesIn({ detail }) {
    const [, times] = /^agent \d threw Error: times (.*)$/m.exec(detail) ?? assert.fail(detail);
    return JSON.parse(times);
  }

  test("go on with the run, past the end of a wait that timed out, and take no time", async (context) => {
    const began = performance.now();
    const [before, between, after] = timesIn(await recordText(context, text(`
      const before = clocks();
      Atomics.add(words, 0, 1);
      const between = clocks();
      if (Atomics.wait(words, 1, 0, 3_600_000) !== "timed-out") throw new Error("it was woken");
      throw new Error("times " + JSON.stringify([before, between, clocks()]));`), { agents: 1 }));
    before.forEach((time, which) => {
      // Those that show whole milliseconds, or seconds, may show the same ones.
      const shown = which < 2 || which > 5 ? "parts" : "whole";
      assert.ok(shown === "parts" ? between[which] > time : between[which] >= time, `clock ${which}`);
      const passed = after[which] - between[which];
      assert.ok(passed >= 3_600_000 - 1 && passed < 3_602_000, `clock ${which} went on by ${passed} ms`);
    });
    assert.ok(Math.abs(after[0] - after[6]) < 10 && Math.abs(after[0] - after[7]) < 10);
    assert.ok(performance.now() - began < 3_600_000);
  });

  test("fit the answers: if a wait has timed out, its time is over", async (context) => {
    const body = `
      const until = performance.now() + 5;
      for (;;) {
        const left = until - performance.now();
        if (left <= 0) break;
        const answer = Atomics.wait(words, 1, 0, left);
        if (answer === "timed-out" && performance.now() < until) throw new Error("too early");
      }
      Atomics.notify(words, 1);`;
    const module = moduleOf(context, text(body));
    const outcomes = await recorded({ ...HOW, module, agents: 3 }, [1, 2, 3, 4]);
    for (const { ending, detail } of outcomes) assert.deepEqual([ending, detail], ["finished", ""]);
  });

  test("are the same for a seed", async (context) => {
    const body = `
      const times = [clocks()];
      for (let time = 0; time < 3; time += 1) {
        Atomics.add(words, 0, 1);
        Atomics.wait(words, 1, 0, 10 * Math.random());
        times.push(clocks());
      }
      if (agent === 1) throw new Error("times " + JSON.stringify(times));`;
    const [one, again] = await madeOfEach([5, 5], (seed) => recordText(context, text(body), { seed }));
    assert.deepEqual(timesIn(one), timesIn(again));
  });

  test("are the machine's if that is asked for", async (context) => {
    const from = Date.now();
    const times = timesIn(await recordText(context, text(`
      Atomics.add(words, 0, 1);
      const before = clocks();
      const own = new Int32Array(new SharedArrayBuffer(4));
      Atomics.wait(own, 0, 0, 100);
      throw new Error("times " + JSON.stringify([before, clocks()]));`), { agents: 1, clock: "real" }));
    const to = Date.now();
    const [before, after] = times;
    for (const which of [2, 3, 4]) assert.ok(before[which] >= from && after[which] <= to, `clock ${which}`);
    for (const which of [0, 1, 2, 3, 4, 6, 7, 8, 9]) {
      const passed = after[which] - before[which];
      assert.ok(passed > 90 && passed < to - from + 1, `clock ${which} went on by ${passed} ms`);
    }
  });

  test("a date that is given, and what hangs on Date, is the engine's", async (context) => {
    const found = timesIn(await recordText(context, text(`
      class Day extends Date {}
      throw new Error("times " + JSON.stringify([
        new Date(86_400_000).toISOString(), new Date("2020-02-29").getUTCDate(), Date.UTC(1970, 0, 2),
        new Date(NaN).getTime(), new Date() instanceof Date, Object.prototype.toString.call(new Date()),
        new Day(5).getTime(), new Day() instanceof Day, typeof Date(), Date.length, Date.name,
        new Date().constructor === Date, new Day().constructor === Day,
      ]));`), { agents: 1 }));
    assert.deepEqual(found, [
      "1970-01-02T00:00:00.000Z", 29, 86_400_000, null, true, "[object Date]", 5, true, "string", 7, "Date", true, true,
    ]);
  });

  test("what agents put in Object.prototype is no trap of a class that stands for the engine's", async (context) => {
    const found = timesIn(await recordText(context, text(`
      for (const name of ["get", "has", "apply", "set"]) Object.prototype[name] = () => "inherited";
      const classes = [SharedArrayBuffer, BroadcastChannel, WebAssembly.Memory].map(({ name }) => name);
      const found = [Date.name, typeof Date.now(), ...classes];
      for (const name of ["get", "has", "apply", "set"]) delete Object.prototype[name];
      throw new Error("times " + JSON.stringify(found));`), { agents: 1 }));
    assert.deepEqual(found, ["Date", "number", "SharedArrayBuffer", "BroadcastChannel", "Memory"]);
  });
});

describe("random numbers", () => {
  // Each agent draws by every way that there is, and leaves what it drew in its part of the buffer.
  const text = `
    import crypto, { randomBytes, randomFillSync, randomInt, randomUUID, webcrypto } from "node:crypto";
    export default function agent({ buffers, agent }) {
      const words = new Int32Array(buffers[0]);
      const drawn = [
        Math.random() * 2 ** 32, globalThis.crypto.getRandomValues(new Uint32Array(1))[0],
        crypto.getRandomValues(new Uint32Array(1))[0], webcrypto.getRandomValues(new Uint32Array(2))[1],
        parseInt(randomUUID(), 16), parseInt(globalThis.crypto.randomUUID(), 16), randomBytes(4).readUInt32LE(0),
        crypto.randomBytes(8).readUInt32LE(4), randomInt(2 ** 32), randomInt(5, 2 ** 32),
        randomFillSync(new Uint32Array(1))[0], parseInt((crypto.randomUUIDv7 ?? randomUUID)().slice(-8), 16),
      ];
      drawn.forEach((number, at) => Atomics.store(words, agent * 16 + at, Math.floor(number) | 0));
    }`;
  const WAYS = 12;

  /** What each agent drew, of each way, in the run of each seed. @returns {Promise<number[][][]>} */
  async function drawn(context, seeds) {
    const module = moduleOf(context, text);
    const outcomes = await recorded({ ...HOW, module, buffers: [128] }, seeds);
    return outcomes.map(({ ending, detail, bytes }) => {
      assert.deepEqual([ending, detail], ["finished", ""]);
      const words = new Uint32Array(new Uint8Array(Buffer.from(bytes[0], "hex")).buffer);
      return [words.slice(0, WAYS), words.slice(16, 16 + WAYS)].map((part) => [...part]);
    });
  }

  test("are the same for a seed, and differ between agents and between seeds", async (context) => {
    const [[one], [other, again]] = await madeOfEach([[3], [4, 3]], (seeds) => drawn(context, seeds));
    assert.deepEqual(one, again);
    for (let way = 0; way < WAYS; way += 1) {
      const numbers = [one[0][way], one[1][way], other[0][way], other[1][way]];
      assert.equal(new Set(numbers).size, 4, `way ${way}: ${numbers}`);
    }
    assert.equal(new Set(one.flat()).size, 2 * WAYS);
  });

  test("are as they must be", async (context) => {
    const { ending, detail } = await recordText(context, `
      import assert from "node:assert";
      import nodeCrypto, { randomBytes, randomInt, randomUUID } from "node:crypto";
      export default function agent({ buffers }) {
        Atomics.add(new Int32Array(buffers[0]), 0, 1);
        if (nodeCrypto.randomUUIDv7) {
          const timed = nodeCrypto.randomUUIDv7();
          assert.match(timed, /^[0-9a-f]{8}-[0-9a-f]{4}-7[0-9a-f]{3}-[89ab][0-9a-f]{3}-[0-9a-f]{12}$/);
          assert.ok(Math.abs(parseInt(timed.slice(0, 8) + timed.slice(9, 13), 16) - Date.now()) < 10_000);
        }
        assert.match(randomUUID(), /^[0-9a-f]{8}-[0-9a-f]{4}-4[0-9a-f]{3}-[89ab][0-9a-f]{3}-[0-9a-f]{12}$/);
        assert.equal(randomBytes(7).length, 7);
        const seen = new Set();
        for (let time = 0; time < 200; time += 1) {
          const number = Math.random();
          assert.ok(number >= 0 && number < 1);
          seen.add(randomInt(3, 6));
        }
        assert.deepEqual([...seen].sort(), [3, 4, 5]);
        assert.throws(() => randomInt(6, 3), RangeError);
        assert.throws(() => crypto.getRandomValues(new Float64Array(1)), { name: "TypeMismatchError" });
        const bytes = new Uint8Array(1_000);
        assert.equal(crypto.getRandomValues(bytes), bytes);
        assert.ok(new Set(bytes).size > 200);
      }`, { agents: 1 });
    assert.deepEqual([ending, detail], ["finished", ""]);
  });
});
