// What agents do that nobody sees is no pass: shared memory that isn't recorded, recorded memory in other threads,
// messages and listeners that nobody serves. Each fails by name and line, or the summary says what was used.

import assert from "node:assert/strict";
import { after, describe, test } from "node:test";
import { record } from "../../recorder.mjs";
import { assertAgents } from "../../testing.mjs";
import { Cases } from "../helpers/cases.mjs";
import { agentsPath, moduleOf, temporaryFolder } from "../helpers/common.mjs";
import { CHECKER } from "../helpers/needs.mjs";
import { placesOfText, recorded, summaryLines } from "../helpers/recorded.mjs";

const MODULE = agentsPath("unrecorded");

/** The outcome of a way of `agents/unrecorded.mjs`. */
const outcomeOf = (way, options = {}) =>
  record({ module: MODULE, agents: 1, buffers: [16], args: [way], sabsim: CHECKER, seconds: 5, ...options });

/** Ways that are tried in the same workers. @param {string[]} ways @param {object} options @returns {Cases} */
function casesOf(ways, options) {
  const cases = new Cases({ module: MODULE, agents: 1, buffers: [16], args: ways, ...options });
  after(() => cases.close());
  return cases;
}

/** The line of the agents' module in which a text stands. */
const lineOf = (text) => placesOfText("unrecorded", text)[0].line;

const MADE_AT_LOADING = lineOf("const atLoading");

/** Cases run side by side, since each starts workers of its own. */
const SIDE_BY_SIDE = { concurrency: 4 };

/**
 * Makes a test of each case: that it fails, with a detail.
 * @param {Record<string, RegExp>} cases by their ways
 * @param {object} [options]
 */
function testFailing(cases, options = {}) {
  const tried = casesOf(Object.keys(cases), options);
  for (const [at, [way, message]] of Object.entries(cases).entries()) {
    test(`${way} ${JSON.stringify(options)}`, async () => {
      const { ending, detail, checked, script } = await tried.outcomeOf(at);
      assert.deepEqual([ending, checked, script], ["failed", false, undefined], detail);
      assert.match(detail, message);
    });
  }
}

/** The same, each in workers of its own: what it does lasts, and is reported for the runs after it, too. */
function testFailingApart(cases) {
  for (const [way, message] of Object.entries(cases)) testFailing({ [way]: message });
}

/** @param {string[]} ways that finish @param {object} [options] */
function testFinishing(ways, options = {}) {
  const tried = casesOf(ways, options);
  for (const [at, way] of ways.entries()) {
    test(`${way} ${JSON.stringify(options)}`, async () => {
      const { ending, detail, unrecorded } = await tried.outcomeOf(at);
      assert.deepEqual([ending, detail, unrecorded], ["finished", "", undefined]);
    });
  }
}

/** What is reported of memory: how it is used, what it is, where it was made, and how often it was used. */
const uses = (how, what, line, counts) =>
  new RegExp(`^agent 0 ${how} a ${what} of its own, made at unrecorded\\.mjs:${line}:\\d+, which isn't recorded `
    + `\\(${counts}, the first at unrecorded\\.mjs:\\d+:\\d+\\): hand the class \`buffers\\[0\\]\` in place of it; `
    + "--unrecorded allow lets it pass$");

const waitsAt = (text) => `would wait at unrecorded\\.mjs:${lineOf(text)}:\\d+ on`;

/** @type {(how: string, counts: string) => RegExp} the same of the memory that is made when the module is loaded */
const usesLoaded = (how, counts) => uses(how, "SharedArrayBuffer", MADE_AT_LOADING, counts);

describe("shared memory that isn't recorded", SIDE_BY_SIDE, () => {
  testFailing({
    lock: uses("uses", "SharedArrayBuffer", lineOf("#word = new"), "3 calls of Atomics"),
    calls: usesLoaded("uses", "2 calls of Atomics"),
    wakes: usesLoaded("uses", "1 call of Atomics"),
    ordinarily: usesLoaded("uses", "2 ordinary reads and writes"),
    view: uses("uses", "SharedArrayBuffer", lineOf("view: () =>"), "1 ordinary read or write"),
    buffer: uses("uses", "SharedArrayBuffer", lineOf("buffer: () =>"), "1 ordinary read or write"),
    subclass: uses("uses", "SharedArrayBuffer", lineOf("subclass: () =>"), "1 ordinary read or write"),
    waits: usesLoaded(waitsAt("waits: () =>"), "1 call of Atomics"),
    waitsInfinitely: usesLoaded(waitsAt("waitsInfinitely: () =>"), "1 call of Atomics"),
    waitsOften: usesLoaded(waitsAt("Atomics.wait(atLoading, 0, 0, 50)"), "2 calls of Atomics"),
    notEqual: usesLoaded("uses", "1 call of Atomics"),
    spins: usesLoaded("uses", "100,000 calls of Atomics"),
    spinsOrdinarily: usesLoaded("uses", "100,000 ordinary reads and writes"),
    grows: uses("uses", "growable SharedArrayBuffer", lineOf("grows: () =>"),
      "1 call of Atomics, 1 ordinary read or write"),
    growsOrdinarily: uses("uses", "growable SharedArrayBuffer", lineOf("growsOrdinarily: () =>") + 1,
      "1 ordinary read or write"),
    message: /^agent 0 uses a SharedArrayBuffer of its own, which isn't recorded \(1 call of Atomics, the first at /,
  });
  testFailingApart({
    wasm: new RegExp("^agent 0 has a shared WebAssembly\\.Memory, made at unrecorded\\.mjs:"
      + `${lineOf("wasm: () =>")}:\\d+, which isn't recorded: nobody sees what is done with it; `),
    wasmExported: new RegExp("^agent 0 has a shared WebAssembly\\.Memory, made at unrecorded\\.mjs:"
      + `${lineOf("wasmExported: () =>")}:\\d+, `),
  });
  testFailing({ lock: /3 calls of Atomics/, waits: /^agent 0 would wait at / }, { ordinary: "store" });
  testFailing({ wasm: /WebAssembly/ }, { ordinary: "store" });
  testFailing({ waits: /^agent 0 would wait at /, waitsOften: /^agent 0 would wait at / }, { clock: "real" });

  test("in agents that each have a lock of their own is no race of what they lock", async () => {
    const { ending, detail, races } = await outcomeOf("lock", { agents: 2 });
    assert.deepEqual([ending, races], ["failed", []]);
    const lines = detail.split("\n")
      .map((line) => /^agent (\d) uses a SharedArrayBuffer of its own, made at /.exec(line)[1]);
    assert.deepEqual(lines, ["0", "1"]);
  });

  testFinishing(["sleeps", "untouched", "private", "privateWasm", "slice", "clone", "worker", "taken"]);
  testFinishing(["sleeps", "slice", "clone", "cloneWithin", "worker", "taken"], { ordinary: "store" });

  for (const way of ["lock", "ordinarily", "grows", "wasm", "ownAbroad", "portToAbroad", "posts", "hooks"]) {
    test(`passes if that is allowed, and each summary says so: ${way}`, async () => {
      const options = { module: MODULE, agents: 1, buffers: [16], args: [way] };
      const [allowed] = await recorded({ ...options, unrecorded: "allow" });
      assert.deepEqual([allowed.ending, allowed.detail, allowed.fails], ["finished", "", false]);
      assert.match(allowed.unrecorded[0], /^(a|another) .*, (made at|by .* at) unrecorded\.mjs:\d+:\d+$/);
      const lines = summaryLines([allowed], { unrecorded: "allow" });
      assert.deepEqual(lines.slice(1, 3), [
        "agents used what isn't recorded, which is allowed: 1 run",
        `  seed 1 the first, 1 run: ${allowed.unrecorded[0]}`,
      ]);
    });
  }
});

describe("recorded memory in another thread is refused, whatever is done with ordinary accesses", SIDE_BY_SIDE, () => {
  const WAYS = {
    wakesAbroad: "a new Worker", countsAbroad: "a new Worker", listAbroad: "a new Worker", viewAbroad: "a new Worker",
    cloneAbroad: "a new Worker", postAbroad: "postMessage of a Worker", portAbroad: "postMessage of a MessagePort",
    environment: "setEnvironmentData",
  };
  for (const ordinary of ["watch", "store", "refuse"]) {
    for (const unrecorded of ["fail", "allow"]) {
      const cases = casesOf(Object.keys(WAYS), { ordinary, unrecorded });
      for (const [at, [way, what]] of Object.entries(WAYS).entries()) {
        test(`${way}, --ordinary ${ordinary}, --unrecorded ${unrecorded}`, async () => {
          const { ending, detail } = await cases.outcomeOf(at);
          assert.equal(ending, "failed", detail);
          const why = `${what} was given recorded memory, and nobody sees what another thread does with it\n`;
          assert.ok(detail.includes(`agent 0 did something that the recorder can't record: Error: ${why}`), detail);
          assert.match(detail, /\n +at .*unrecorded\.mjs:\d+:\d+/);
          assert.doesNotMatch(detail, /--ordinary store/);
        });
      }
    }
  }
});

test("a test of agents fails at once where an agent would wait on its own memory, without acts", async (context) => {
  const out = temporaryFolder(context);
  const options = { module: MODULE, agents: 1, buffers: [16], args: ["waits"], seeds: 3, seconds: 600, out };
  const start = Date.now();
  await assert.rejects(assertAgents(options), ({ message }) => {
    assert.match(message,
      /^seed 1: stopped\n {2}agent 0 would wait at unrecorded\.mjs:\d+:\d+ on a SharedArrayBuffer /);
    assert.match(message, /\n\nnot kept: seed-1\.json: agents did what nobody saw$/);
    assert.ok(!message.includes("Its last acts"), message);
    return true;
  });
  assert.ok(Date.now() - start < 600_000);
});

test("`init` and `check` of a module can't give recorded memory to a Worker either", SIDE_BY_SIDE, async (context) => {
  for (const [name, ending] of [["init", "failed"], ["check", "check"]]) {
    const module = moduleOf(context, `import { Worker } from "node:worker_threads";
      export const ${name} = ([buffer]) => { new Worker("", { eval: true, workerData: buffer }); };
      export default ({ buffers }) => { Atomics.add(new Int32Array(buffers[0]), 0, 1); };`);
    for (const ordinary of ["watch", "store"]) {
      const options = { module, agents: 1, buffers: [4], sabsim: CHECKER, unrecorded: "allow", ordinary };
      const { ending: is, detail } = await record(options);
      assert.equal(is, ending, detail);
      assert.match(detail,
        new RegExp(`^${name} threw Error: a new Worker was given recorded memory, [^]*agents\\.mjs:2:`));
    }
  }
});

/** @type {(what: string, line: number) => RegExp} */
const abroad = (what, line) =>
  new RegExp(`^agent 0 .* another thread, by ${what} at unrecorded\\.mjs:${line}:\\d+: `
    + "nobody sees what that thread does; ");

/** @type {(what: string, way: string, off?: number) => RegExp} */
const untaken = (what, way, off = 0) =>
  new RegExp(`^agent 0 calls ${what} at unrecorded\\.mjs:${lineOf(`${way}: () =>`) + off}:\\d+, but nobody takes its `
    + "messages: an agent must be synchronous, and talk to others through its buffers$");

/** @type {(what: string, way: string, off?: number) => RegExp} */
const unheard = (what, way, off = 0) =>
  new RegExp(`^agent 0 listens for messages, by ${what} at unrecorded\\.mjs:${lineOf(`${way}: () =>`) + off}:\\d+, but `
    + "never gets one: an agent must be synchronous, and talk to others through its buffers$");

const STARTS = lineOf("const ended");

describe("what other threads and messages do", SIDE_BY_SIDE, () => {
  testFailingApart({
    ownAbroad: abroad("a new Worker", STARTS),
    wasmAbroad: /^agent 0 has a shared WebAssembly\.Memory, [^]*\nagent 0 gave memory or a port to another thread, by /,
    waitsForAbroad: /^agent 0 would wait at unrecorded\.mjs:\d+:\d+ on a SharedArrayBuffer of its own, /,
    portToAbroad: /^agent 0 works with another thread, by MessagePort\.postMessage at /,
    posts: abroad("Worker.postMessage", lineOf("posts: () =>")),
    hooks: abroad("module.register", lineOf("hooks: () =>")),
  });
  testFailing({
    parentPosts: untaken("parentPort\\.postMessage", "parentPosts"),
    untaken: untaken("MessagePort\\.postMessage", "untaken"),
    channel: untaken("new BroadcastChannel", "channel"),
    caught: untaken("parentPort\\.postMessage", "caught", 2),
    parentListens: unheard("parentPort\\.on", "parentListens"),
    portOn: unheard("MessagePort\\.on", "portOn"),
    portOnce: unheard("MessagePort\\.once", "portOnce"),
    portListens: unheard("MessagePort\\.addEventListener", "portListens"),
    portHandles: unheard("MessagePort\\.onmessage", "portHandles", 1),
    workerListens: unheard("Worker\\.on", "workerListens"),
  });
  testFailing({ untaken: /nobody takes/, portOn: /never gets one/ }, { ordinary: "store", unrecorded: "allow" });

  const AT_LOADING = {
    "parentPort.postMessage": "parentPort.postMessage('ready');",
    "BroadcastChannel.postMessage": "new BroadcastChannel('all').postMessage('ready');",
  };
  for (const [what, code] of Object.entries(AT_LOADING)) {
    test(`a message that is posted while the module is loaded fails each run: ${what}`, async (context) => {
      const module = moduleOf(context, `import { parentPort } from "node:worker_threads";\n${code}
        export default ({ buffers }) => { Atomics.add(new Int32Array(buffers[0]), 0, 1); };`);
      for (const unrecorded of ["fail", "allow"]) {
        const { ending, detail } = await record({ module, agents: 1, buffers: [4], sabsim: CHECKER, unrecorded });
        assert.equal(ending, "failed", detail);
        assert.match(detail,
          new RegExp(`^agent 0 calls ${what} at agents\\.mjs:2:\\d+, but nobody takes its messages`));
      }
    });
  }
});
