// `--all`: every schedule of a module of agents, from the command line, by the library and in a suite.

import assert from "node:assert/strict";
import { readFileSync, writeFileSync } from "node:fs";
import { join } from "node:path";
import { test } from "node:test";
import { fileURLToPath, pathToFileURL } from "node:url";
import { Agreement } from "../../lib/every/agreement.mjs";
import { learnAgain, learnApart } from "../../lib/every/learning/apart.mjs";
import { programOf } from "../../lib/every/search/file.mjs";
import { searched } from "../../lib/every/search/searched-file.mjs";
import { NotAsLearned, Refused, everySchedule, record } from "../../recorder.mjs";
import { assertAgents } from "../../testing.mjs";
import { BODIES, moduleOf as nastyOf } from "../every/nasty.mjs";
import { commandHere } from "../helpers/command-here.mjs";
import { FEW_WORKERS, RECORD, agentsPath, commandThere, moduleOf, temporaryFolder } from "../helpers/common.mjs";

const EXAMPLES = fileURLToPath(new URL("../../examples/", import.meta.url));

/** @param {string[]} words */
const command = (...words) => commandHere(words);

const OTHER_NEXT = "Object.getPrototypeOf([][Symbol.iterator]()).next = () => ({ done: true });";

/** A module of two agents that load and then do something. */
const LOADS = (more) => `export const setup = { agents: 2, buffers: [8] };
export default function agent({ buffers, agent: self }) {
  const words = new Int32Array(buffers[0]);
  Atomics.load(words, 0);
  ${more}
}
`;

test("a right lock: every schedule was tried, and nothing was found", async (context) => {
  const out = temporaryFolder(context);
  const module = join(EXAMPLES, "mutex-three-state.agents.mjs");
  const done = await commandThere([module, "--all", "--seeds", "1..20", "--out", out]);
  assert.equal(done.stderr, "");
  assert.equal(done.status, 0);
  const [first, states, learned, ...rest] = done.stdout.split("\n");
  assert.equal(first, "every schedule of 3 agents was tried: none deadlocks, throws, has a data race or fails check; "
    + "from every state all agents can still end");
  assert.match(states, /^ {2}3,620 states, 9,333 acts; 1 final state: /);
  assert.match(learned,
    /^ {2}the search is proved; what .*: 39 moments of an agent, each of 78 edges twice, by (\d+) of \1 ways to mo/);
  assert.match(learned, /ways to moments that have several; 20 real runs agree$/);
  assert.match(rest[0], /^ {2}two moments counted as one only if all that the agent's code can still read was the /);
  assert.equal(rest[1], "  states that differ only by an exchange of like agents counted as one: these do the "
    + "same at the same lines");
  assert.equal(rest[2], "other numbers of agents, rounds or arguments weren't tried");
  assert.equal(rest.at(-2), `kept in ${out}: all.automata.json`);
  const file = JSON.parse(readFileSync(join(out, "all.automata.json"), "utf8"));
  assert.equal(searched(file, { timeouts: "early", limit: 1_000_000 }).states, 3_620);
});

test("a lost wake-up is found, and shown by a run of the code that can be replayed", async (context) => {
  const out = temporaryFolder(context);
  const module = join(EXAMPLES, "mutex-naive.agents.mjs");
  const done = await command(module, "--all", "--seeds", "1..5", "--out", out);
  assert.equal(done.status, 1, done.stderr);
  assert.match(done.stdout, /^every schedule of 3 agents was tried: agents can deadlock\n/);
  assert.match(done.stdout, /agent \d waits at BELL: its call 1, .* at mutex-naive.mjs:23:15/);
  assert.match(done.stdout,
    /all-1\.json, all-1\.report, all-1\.trace\.jsonl, all-1\.explained, all-1\.svg, all-1\.html/);
  const replayed = await command(module, "--replay", join(out, "all-1.json"));
  assert.equal(replayed.status, 1, replayed.stderr);
  assert.match(replayed.stdout, /1 of 1 run failed: 1 deadlock/);
});

test("JSON has what the text says", async () => {
  const done = await command(join(EXAMPLES, "late-notify.agents.mjs"), "--all", "--seeds", "1..5", "--format", "json");
  assert.equal(done.status, 1, done.stderr);
  const { areAlike, every, closed, found, notProved, realRuns, searchProved, states } = JSON.parse(done.stdout);
  assert.deepEqual({ every, closed, realRuns, states }, { every: 1, closed: true, realRuns: 5, states: 428 });
  assert.equal(areAlike, false);
  assert.deepEqual([searchProved, notProved], [true, null]);
  assert.equal(found.length, 1);
  assert.equal(found[0].kind, "threw");
  assert.match(found[0].detail[0], /^agent 0 threw Error: the answer to job \d+ is \d+, and not \d+/);
});

for (const [name, wanted] of /** @type {[string, [string, RegExp][]][]} */ ([
  ["spin-on-shut-door", [["no way out", /^agent 1 spins at /]]],
  ["lost-update", [["check", /^check threw Error: counted to 1/]]],
  ["flag-read-ordinarily", [["race", /reads .* at flag-read-ordinarily.mjs:15:17/]]],
  ["spin-ordinarily", [["race", /./]]],
  ["stack-tag-wraps", [["check", /^check threw Error: node 2 is on the stack, and an agent's/]]],
  ["stack-tagged", []],
  ["mutex", []],
])) {
  test(`what is known of ${name} is found`, async () => {
    const module = fileURLToPath(new URL(`../known/${name}.mjs`, import.meta.url));
    const { closed, found, realRuns } = await everySchedule({ module, seeds: 5 });
    assert.ok(closed);
    assert.equal(realRuns, name === "spin-ordinarily" ? realRuns : 5);
    assert.deepEqual(found.map(({ kind }) => kind), wanted.map(([kind]) => kind));
    for (const [at, [, detail]] of wanted.entries()) assert.match(found[at].detail?.join("\n") ?? "", detail);
  });
}

test("steps that one history alone leads to are counted", async (context) => {
  const module = moduleOf(context, LOADS(""));
  const { edges, edgesByOne, ways, waysTried } = await everySchedule({ ...FEW_WORKERS, module, seeds: 1 });
  assert.deepEqual({ edges, edgesByOne, ways, waysTried }, { edges: 2, edgesByOne: 2, ways: 0, waysTried: 0 });
});

test("a race says which lines read and write", async (context) => {
  const module = moduleOf(context, LOADS("words[1] = self;\n  Atomics.load(words, 0);"));
  const { found } = await everySchedule({ ...FEW_WORKERS, module, seeds: 1 });
  assert.deepEqual(found.map(({ kind, text }) => [kind, text]), [["race", "agents.mjs:5:12 and agents.mjs:5:12"]]);
});

/** Learns a module in a thread of its own, and makes no runs of it. @param {string} path @param {object} [more] */
const learned = (path, more = {}) => learnApart({
  module: pathToFileURL(path).href, args: [], place: {}, timeouts: "early", limit: 10_000, within: 60, ...more,
}, { seconds: 10 });

/** What the engine makes of a list is an object of the language. */
const SPECIES = "const made = [1]; made.constructor = { [Symbol.species]: function give() { return JSON; } };";

test("what can't be learned is refused, with its line", async (context) => {
  for (const [text, wanted] of /** @type {[string, RegExp][]} */ ([
    [LOADS("new Intl.DateTimeFormat().format();"), /it looks at a clock, at agents\.mjs:5:\d+$/],
    [`import crypto from "node:crypto";\nconst name = crypto.randomUUID();\n${LOADS("name;")}`,
      /it asks for a random number, at .*:2:21$/],
    [LOADS("Atomics.add(new Int32Array(new SharedArrayBuffer(4)), 0, 1);"), /that isn't recorded, at agents\.mjs:5/],
    [LOADS("eval('1');"), /it uses `eval`, at agents\.mjs:5:3$/],
    [LOADS("(() => 0).constructor('return 1')();"), /it uses `Function`, at agents\.mjs:5:13$/],
    [LOADS("(() => 0)['constructor']('return 1')();"), /it uses `Function`, at agents\.mjs:5:\d+$/],
    [LOADS("const { constructor: R } = /a/; R.$1;"), /a regular expression has found last, at agents\.mjs:5:37$/],
    [LOADS("String(agent);"), /it reads the text of a function, at agents\.mjs:5:\d+$/],
    [LOADS("performance.mark('a');"), /it uses `performance\.mark`, at agents\.mjs:5:15$/],
    [LOADS("let n = 1;\n  if (self <!--n) return;"), /agents\.mjs:6:7: `<!--`, which no module may have$/],
    [LOADS("{ using one = null; }"), /agents\.mjs:5:5: `using`$/],
    [LOADS("buffers[0].kept = 1;"), /gives the object of a buffer a property or another prototype$/],
    [LOADS(OTHER_NEXT), /it changes `arrayIterator`, an object of the language or of node, at agents\.mjs:5:3$/],
    [`${OTHER_NEXT}\n${LOADS("")}`, /it changes `arrayIterator`, an object of the language or of node, at .*:1:1$/],
    [LOADS("Promise.resolve().then(() => {});"), /it goes on later, by a promise, at agents\.mjs:5:21$/],
    [LOADS("(async () => { await 0; })();"), /it goes on later, by a promise, at agents\.mjs:5:18$/],
    [LOADS("(async () => { throw 1; })();"), /it leaves a rejected promise, which nobody handles, at its end$/],
    [LOADS("new WeakRef({});"), /it uses `WeakRef`, at agents\.mjs:5:3$/],
    [LOADS("[].leave(Atomics.load(words, 1));"), /names code that was rewritten, at agents\.mjs:5:11$/],
    [LOADS("const f = () => 1;\n  f(self, Atomics.load(words, 1)).leave();"), /was rewritten, at agents\.mjs:6:35$/],
    [LOADS("let all;\n  for (const one of all) Atomics.load(words, one);"), /was rewritten, at agents\.mjs:6:21$/],
    [LOADS("Math.max(...Atomics.load(words, 1));"), /names code that was rewritten, at agents\.mjs:5:15$/],
    [LOADS(`${SPECIES} made.slice();`), /it changes `JSON`, an object of the language or of node, at agents\.mjs:5:/],
    [LOADS(`${SPECIES} made.flat();`), /it changes `JSON`, an object of the language or of node, at agents\.mjs:5:/],
    [LOADS("throw { get message() { return Atomics.load(words, 1); } };"), /put into words, at agents\.mjs:5:42$/],
    [LOADS("throw { get message() { words[1] = 1; return ''; } };"), /when it is put into words, at its end$/],
    [LOADS("function f() { var g = 1; function g() {} }"), /agents\.mjs:5:3: `g`, which a function declares twice$/],
    [LOADS("function f() { function g() {} function g() {} }"), /`g`, which a function declares twice$/],
    [LOADS("Array.prototype.push = 1;"), /`Array\.prototype`, an object of the language or of node, at .*:5:3$/],
    [`import { readFileSync as f } from "node:fs";\n${LOADS("f('a');")}`, /`node:fs\.readFileSync`, at .*:6:\d+$/],
  ])) {
    await assert.rejects(learned(moduleOf(context, text)), { constructor: Refused, message: wanted }, text);
  }
  const module = moduleOf(context, LOADS("performance.mark('a');"));
  await assert.rejects(everySchedule({ module, seeds: 1 }), { constructor: Refused, message: /, at .*\.mjs:5:15$/ });
});

test("an agent may change what it is given", async (context) => {
  const module = moduleOf(context, `export const setup = { agents: 2, buffers: [16] };
export default (given) => {
  given.agent += given.agents + given.args.length + Object.keys(given).indexOf("agent");
  const words = new Int32Array(given.buffers[0]);
  Atomics.store(words, given.agent - 3, 7);
};`);
  const { closed, found, finals } = await everySchedule({ ...FEW_WORKERS, module, seeds: 2 });
  assert.deepEqual([closed, found, finals.length], [true, [], 1]);
  assert.match(finals[0].blocks[0], /^0700000007000000/);
});

test("what a module throws is learned as it is written", async (context) => {
  for (const [more, wanted] of [
    ["const lock = {};\n  lock.leave(Atomics.load(words, 1));", "TypeError: lock.leave is not a function"],
    ["let leave;\n  leave(Atomics.load(words, 1));", "TypeError: leave is not a function"],
    ["'lock'.leave(Atomics.load(words, 1));", 'TypeError: "lock".leave is not a function'],
    ["(new class { #f = 1; go() { this.#f(Atomics.load(words, 1)); } }).go();",
      "TypeError: this[#f] is not a function"],
    ["const lock = {};\n  new lock.Kind(Atomics.load(words, 1));", "TypeError: lock.Kind is not a constructor"],
  ]) {
    const { closed, found } = await everySchedule({ ...FEW_WORKERS, module: moduleOf(context, LOADS(more)), seeds: 2 });
    assert.deepEqual([closed, found.map(({ text }) => text)], [true, [wanted]]);
  }
});

/**
 * An agent does something else than was learned.
 * @param {object} options of everySchedule
 * @param {RegExp} [message]
 */
const demandNotAsLearned = (options, message = /./) =>
  assert.rejects(everySchedule({ ...FEW_WORKERS, seeds: 1, ...options }), { constructor: NotAsLearned, message });

test("what agents do before any call is learned a second time", async (context) => {
  const module = moduleOf(context, `let runs = 0;
export const setup = { agents: 2, buffers: [8] };
export default function agent({ agent: self }) {
  runs += 1;
  if (runs > 1) throw new Error("not the first, " + self);
}
`);
  // Each worker runs once, so only the second learning can have found that they keep something.
  assert.equal((await everySchedule({ ...FEW_WORKERS, module, seeds: 1 })).freshened, true);
});

test("real runs of modules that keep something from run to run load them anew", async () => {
  const options = { module: agentsPath("remembers"), seeds: 20 };
  const { closed, found, freshened, realRuns } = await everySchedule(options);
  assert.deepEqual({ closed, freshened, realRuns }, { closed: true, freshened: true, realRuns: 20 });
  assert.deepEqual(found.map(({ kind }) => kind), ["race"]);
  const done = await command(agentsPath("remembers"), "--all", "--seeds", "1..20");
  assert.equal(done.status, 1);
  const line = "  the modules keep something from run to run, so each real run has loaded them anew";
  assert.ok(done.stdout.split("\n").includes(line), done.stdout);
});

test("an agent that goes by the depth of its stack isn't as it was learned", async (context) => {
  const deep = "let n = 0;\n  const deep = () => { n += 1; deep(); };\n  try { deep(); } catch {}";
  const module = moduleOf(context, LOADS(`${deep}\n  Atomics.store(words, 1, n);`));
  await demandNotAsLearned({ module },
    /something else than was learned.*\["store","Int32_0",1,\d+\]; and now it does: \[/);
  const other = moduleOf(context, LOADS(deep));
  assert.deepEqual((await everySchedule({ ...FEW_WORKERS, module: other, seeds: 1 })).found, []);
});

test("with new workers for each run they are as they were learned", async () => {
  const options = { module: agentsPath("remembers"), fresh: true, seeds: 5 };
  const { closed, found, freshened, realRuns } = await everySchedule(options);
  assert.deepEqual({ closed, freshened, realRuns }, { closed: true, freshened: false, realRuns: 5 });
  assert.deepEqual(found.map(({ kind }) => kind), ["race"]);
});

test("a real run that isn't a way through the automata is noticed", async (context) => {
  const out = temporaryFolder(context);
  const module = join(EXAMPLES, "mutex-three-state.agents.mjs");
  await command(module, "--all", "--seeds", "1..2", "--out", out);
  const file = readFileSync(join(out, "all.automata.json"), "utf8");
  const outcome = await record({ module, trace: true, seed: 3 });
  const right = new Agreement(programOf(JSON.parse(file)));
  right.needs(outcome);
  assert.equal(right.compared, 1);
  const changes = [
    ["another call", (data) => {
      data.automata[0].nodes[0].call[4] = 2;
    }],
    ["another edge", (data) => {
      for (const node of data.automata[0].nodes) if (node.call?.[0] === "compareExchange") node.edges[0][1] = 0;
    }],
    ["other bytes at first", (data) => {
      data.initial[0] = data.initial[0].replace(/^00/, "01");
    }],
  ];
  for (const [name, change] of changes) {
    const data = JSON.parse(file);
    change(data);
    assert.throws(() => new Agreement(programOf(data)).needs(outcome), NotAsLearned, name);
  }
});

test("moments that were merged wrongly are noticed by the second learning", async (context) => {
  const path = moduleOf(context, nastyOf(BODIES["temporary in a sum"]));
  const module = pathToFileURL(path).href;
  for (const hides of [undefined, "temporaries"]) {
    const { edges, isShared, nodes, plan } = await learned(path, { flaw: { hides } });
    const differs = await learnAgain({ module, args: [], plan, isShared, isFresh: false, nodes, edges });
    assert.equal(differs !== undefined, hides !== undefined, differs);
  }
});

test("moments that were merged wrongly behind one of nine ways are noticed", async (context) => {
  const turns = "const turns = () => { for (let at = 0; at < 3; at += Atomics.load(words, 0)); return 0; };";
  for (const later of ["Atomics.load(words, 0)", "turns()"]) {
    const path = moduleOf(context, LOADS(`${turns}
  if (self === 1) for (let at = 0; at < 9; at += 1) Atomics.store(words, at === 0 ? 0 : 1, at === 0 ? 1 : at);
  else Atomics.store(words, 0, (Atomics.load(words, 1) === 5 ? 7 : 0) + ${later});`));
    const module = pathToFileURL(path).href;
    for (const hides of [undefined, "temporaries"]) {
      const { edges, isShared, nodes, plan, ways } = await learned(path, { flaw: { hides } });
      assert.ok(ways.tried === ways.all && ways.all >= 9, JSON.stringify(ways));
      const differs = await learnAgain({ module, args: [], plan, isShared, isFresh: false, nodes, edges });
      assert.equal(differs !== undefined, hides !== undefined, differs);
    }
  }
});

test("if not every schedule can be tried, it goes on with the seeds", async () => {
  const module = join(EXAMPLES, "mutex-three-state.agents.mjs");
  const done = await command(module, "--all", "--states", "500", "--seeds", "1..5");
  assert.equal(done.status, 4, done.stderr);
  assert.match(done.stdout, /^not every schedule was tried: all of up to \d+ acts were, 500 states/);
  assert.match(done.stdout, /automaton 0 have \d+ nodes; the results at [\w.-]+:\d+:\d+ lead to \d+ of them, up/);
  assert.match(done.stdout, /\n {2}to change: fewer agents, rounds and different values make fewer states\n/);
  assert.match(done.stdout, /\n5 runs: 5 finished\n/);
  const json = await command(module, "--all", "--states", "500", "--seeds", "1..5", "--format", "json");
  const { every, runs } = JSON.parse(json.stdout);
  assert.deepEqual([json.status, every.closed, every.isWhole], [4, false, false]);
  assert.equal(runs, 5);
});

test("what was found is shown if not every schedule can be tried, too", async (context) => {
  const out = temporaryFolder(context);
  const module = join(EXAMPLES, "mutex-naive.agents.mjs");
  const done = await command(module, "--all", "--states", "1000", "--seeds", "1..1", "--out", out);
  assert.equal(done.status, 1, done.stderr);
  assert.match(done.stdout,
    /^not every schedule was tried: all of up to \d+ acts were, 1,000 states; there are more\n/);
  assert.match(done.stdout, /\n1 run: 1 finished\n/);
  assert.match(done.stdout,
    /\n {2}among those that were tried, agents can deadlock\n {2}deadlock, in \d+ states?; shown /);
  assert.match(done.stdout, /\n {4}agent \d waits at BELL: its call \d/);
  assert.match(done.stdout, /\nkept in .*: all-1\.json, all-1\.report, /);
  const replayed = await command(module, "--replay", join(out, "all-1.json"));
  assert.match(replayed.stdout, /1 of 1 run failed: 1 deadlock/);
});

test("an agent that never comes back ends its thread", async (context) => {
  const module = moduleOf(context, LOADS("if (self === 1) for (;;);"));
  const done = await command(module, "--all", "--seeds", "1", "--everywhere", "--seconds", "1");
  assert.match(done.stdout,
    /^not every schedule was tried: an agent .* didn't come back within 1 s: .*; it is at agents\.mjs:5:\d+\n/);
  assert.match(done.stdout, /\n {2}to change: let the loop end, or call Atomics in each of its turns\n/);
  assert.equal(done.status, 1);
});

test("no more runs are made if one fails and one hangs", async (context) => {
  const some = "if (Atomics.add(words, 1, 1) === self) throw new Error('first');\n  for (;;);";
  const module = moduleOf(context, LOADS(some));
  const done = await command(module, "--all", "--seeds", "1..300", "--jobs", "1", "--everywhere", "--seconds", "1");
  assert.match(done.stdout, /\nended, since runs fail and hang, with the seeds \d to 300 not run, after \d of 300 /);
  assert.equal(done.status, 1);
});

test("an agent that catches everything is broken off", async (context) => {
  const module = moduleOf(context, LOADS("for (;;) try { Atomics.add(words, 0, 1); } catch {}"));
  const { closed, open } = await everySchedule({ ...FEW_WORKERS, module, seeds: 1, seconds: 1 });
  assert.equal(closed, false);
  assert.match(open ?? "", /^an agent .* alone didn't come back within 1 s: .* everything that is thrown; it is at ag/);
});

test("options that don't go with it are refused by name", async () => {
  const module = join(EXAMPLES, "mutex-naive.agents.mjs");
  for (const words of [
    ["--shard", "1/2"], ["--replay", "x.json"], ["--clock", "real"], ["--ordinary", "store"],
    ["--ordinary", "refuse"], ["--races", "allow"], ["--unrecorded", "allow"], ["--timeouts", "0"],
  ]) {
    const done = await command(module, "--all", ...words);
    assert.equal(done.status, 2, words.join(" "));
    assert.ok(done.stderr.includes(words[0]) && done.stderr.includes("doesn't go with --all"), done.stderr);
  }
  const program = await command("--program", RECORD, "--all");
  assert.match(program.stderr, /--program doesn't go with --all/);
  for (const word of ["--within", "--states"]) {
    assert.match((await command(module, word, "5")).stderr, new RegExp(`${word} needs --all`));
  }
  await assert.rejects(everySchedule({ module, init: () => {} }), /`init` can't be given/);
});

test("a trial of a suite fails by what is found, and if not every schedule was tried", async () => {
  const right = join(EXAMPLES, "late-notify-mended.agents.mjs");
  await assertAgents({ module: right, all: true, seeds: 5 });
  const wrong = join(EXAMPLES, "late-notify.agents.mjs");
  await assert.rejects(assertAgents({ module: wrong, all: true, seeds: 5 }), /RunFailed|agents can throw/);
  const small = { module: right, all: /** @type {const} */ (true), states: 10, seeds: 5 };
  await assert.rejects(assertAgents(small), /not every schedule was tried/);
});

test("agents may assert", async (context) => {
  const module = moduleOf(context, `import assert from "node:assert/strict";
import { equal } from "node:assert";
${LOADS(`const before = Atomics.add(words, 0, 1);
  equal(typeof before, 'number');
  assert(before === 0 || self > 5);`)}`);
  const { closed, found } = await everySchedule({ module, seeds: 5 });
  assert.ok(closed);
  assert.deepEqual(found.map(({ kind, text }) => [kind, text]), [["threw", "AssertionError [ERR_ASSERTION]"]]);
  assert.match(found[0].detail?.[0] ?? "", /^agent \d threw AssertionError/);
});

test("what ordinary writes, `init`, `noBlock` and arguments do is learned", async (context) => {
  const module = moduleOf(context, `export const setup = { agents: 2, buffers: [8, 4], noBlock: [1] };
export const init = ([words]) => { new Int32Array(words)[1] = 5; };
export default function agent({ buffers, agent: self, args }) {
  const words = new Int32Array(buffers[0]);
  if (self === 1) {
    try { Atomics.wait(words, 0, 0); } catch (error) { Atomics.add(words, 1, error instanceof TypeError ? 10 : 20); }
    return;
  }
  new Uint8Array(buffers[1])[2] = Number(args[0]);
  Atomics.add(words, 1, 1);
}
export const check = ([words, bytes]) => new Int32Array(words)[1] === 16 && new Uint8Array(bytes)[2] === 7;
`);
  const { closed, finals, found, realRuns } = await everySchedule({ module, args: ["7"], seeds: 5 });
  assert.deepEqual({ closed, found, realRuns }, { closed: true, found: [], realRuns: 5 });
  assert.deepEqual(finals.map(({ blocks }) => blocks), [["0000000010000000", "00000700"]]);
});

test("a time that is over at any moment, or never", async (context) => {
  const waits = "if (self === 0) Atomics.wait(words, 0, 0, 500); else Atomics.notify(words, 0);";
  const module = moduleOf(context, LOADS(waits));
  const early = await everySchedule({ ...FEW_WORKERS, module, seeds: 2 });
  assert.deepEqual(early.found, []);
  const never = await everySchedule({ ...FEW_WORKERS, module, timeouts: "never", seeds: 2 });
  assert.deepEqual(never.found.map(({ kind }) => kind), ["deadlock"]);
  const none = moduleOf(context, LOADS("if (self === 0) Atomics.wait(words, 0, 0, 0);"));
  const endless = { module: none, timeouts: /** @type {const} */ ("never"), seeds: 2 };
  await assert.rejects(everySchedule(endless), /waits for 0 ms, .*, at agents\.mjs:5/);
  assert.deepEqual((await everySchedule({ ...FEW_WORKERS, module: none, seeds: 2 })).found, []);
  const below = moduleOf(context, LOADS("if (self === 0) Atomics.wait(words, 0, 0, -5);"));
  await assert.rejects(everySchedule({ ...endless, module: below }), /waits for 0 ms, .*, at agents\.mjs:5/);
  const above = moduleOf(context, LOADS("if (self === 0) Atomics.wait(words, 0, 0, 0.5);"));
  const stuck = await everySchedule({ ...FEW_WORKERS, ...endless, module: above });
  assert.deepEqual(stuck.found.map(({ kind }) => kind), ["deadlock"]);
});

test("modules that import from each other in all forms are learned as they are written", async (context) => {
  const folder = temporaryFolder(context);
  const files = {
    "one.mjs": `export let count = 0;
export function more() { count += 1; return count; }
export const [first, { second }] = [1, { second: 2 }];
export class Lock { constructor(words) { this.words = words; } take() { return Atomics.add(this.words, 0, more()); } }
export { more as another, more as "a name" };
export default function () { return 7; }`,
    "two.mjs": "export * from \"./one.mjs\"; export * as all from \"./one.mjs\";\n"
      + "export { default as seven } from \"./one.mjs\";\n"
      + "import { main } from \"./agents.mjs\"; export const later = () => main;",
    "agents.mjs": `#!/usr/bin/env node
import * as two from "./two.mjs";
import seven, { Lock, another, "a name" as named, count, first, second as other } from "./one.mjs";
export const setup = { agents: 2, buffers: [8] };
export const main = 5;
const { later, all } = two;
export default ({ buffers }) => {
  const words = new Int32Array(buffers[0]);
  const lock = new Lock(words);
  const before = count;
  lock.take();
  named();
  const sum = { before, count, first, other, seven: seven(), two: two.seven(), main: later(), same: all.count };
  if (Object.values(sum).join() !== "0,2,1,2,7,7,5,2") throw new Error(Object.values(sum).join());
  Atomics.add(words, 1, another() + sum.count);
};`,
  };
  for (const [name, text] of Object.entries(files)) writeFileSync(join(folder, name), text);
  const { closed, finals, found } = await everySchedule({ module: join(folder, "agents.mjs"), fresh: true, seeds: 3 });
  assert.deepEqual([closed, found, finals.map(({ text }) => text)], [true, [], ["020000000a000000"]]);
});
