// Parts of a module of agents besides the agents' function, and what never comes back, as --all takes them.

import assert from "node:assert/strict";
import { writeFileSync } from "node:fs";
import { dirname, join } from "node:path";
import { test } from "node:test";
import { pathToFileURL } from "node:url";
import { learnAgain, learnApart } from "../../lib/every/learning/apart.mjs";
import { isShownBy } from "../../lib/every/showing.mjs";
import { Refused, everySchedule } from "../../recorder.mjs";
import { COUNTS, FEW_WORKERS, moduleOf } from "../helpers/common.mjs";

test("an `init` that fails leaves nothing to search", async (context) => {
  for (const [init, wanted] of [
    ["() => { throw new Error('no bytes'); }", "`init` threw Error: no bytes"],
    ["() => false", "`init` returned false"],
    ["async () => {}", "`init` returned a promise, but it must be synchronous"],
  ]) {
    const module = moduleOf(context, `${COUNTS}export const init = ${init};\n`);
    const { closed, open } = await everySchedule({ ...FEW_WORKERS, module, seeds: 1 });
    assert.deepEqual([closed, open], [false, wanted]);
  }
});

test("an `init` or a `check` that never comes back is ended", async (context) => {
  for (const name of ["init", "check"]) {
    const module = moduleOf(context, `${COUNTS}export const ${name} = () => { for (;;); };\n`);
    const { closed, open } = await everySchedule({ ...FEW_WORKERS, module, seeds: 1, seconds: 1 });
    assert.equal(closed, false);
    assert.match(open ?? "", new RegExp(`^\`${name}\` didn't come back within 1 s; it is at agents\\.mjs:\\d+:\\d+$`));
  }
});

test("an agent that never comes back in the second learning is ended there, and is learned anew", async (context) => {
  const module = moduleOf(context, `${COUNTS.replace("void", "void spin() ??")}let runs = 0;
function spin() { runs += 1; if (runs > 1) for (;;); }
`);
  const over = new AbortController().signal;
  const url = pathToFileURL(module).href;
  const wanted = { module: url, args: [], place: {}, timeouts: /** @type {const} */ ("early"), limit: 100, within: 60 };
  const { edges, isShared, nodes, plan } = await learnApart(wanted, { seconds: 1, over });
  const given = { module: url, args: [], plan, isShared, isFresh: false, nodes, edges };
  assert.match(await learnAgain(given, { seconds: 1, over }) ?? "", /^There an agent .* didn't come back within 1 s/);
  const { closed, freshened } = await everySchedule({ ...FEW_WORKERS, module, seeds: 1, seconds: 1 });
  assert.deepEqual({ closed, freshened }, { closed: true, freshened: true });
});

test("a module that can't be loaded is refused, and one that asks for chance while it is loaded", async (context) => {
  for (const [begins, wanted] of /** @type {[string, RegExp][]} */ ([
    ["throw new Error('no module');\n", /^--all can't load agents\.mjs: Error: no module$/],
    ["try { Math.more = 1; } catch {}\n", /it changes `Math`, an object of the language or of node, at .*:1:7$/],
    ["setTimeout(() => {}, 1);\n", /it uses `setTimeout`, at agents\.mjs:1:1$/],
    ["const chance = Math.random();\n", /it asks for a random number, at agents\.mjs:1:21$/],
  ])) {
    const options = { ...FEW_WORKERS, module: moduleOf(context, begins + COUNTS), seeds: 1 };
    await assert.rejects(everySchedule(options), { constructor: Refused, message: wanted });
  }
});

test("an agent that asks what its number is as a property looks at it", async (context) => {
  for (const number of [
    "Object.getOwnPropertyDescriptor(given, 'agent').value", "Reflect.getOwnPropertyDescriptor(given, 'agent').value",
    "Object.getOwnPropertyDescriptors(given).agent.value", "given.__lookupGetter__('agent') ?? given.agent",
    "given.__lookupSetter__('agent') ?? given.agent",
    "Object.defineProperty(given, 'agent', { enumerable: true }).agent",
    "Object.defineProperties(given, { agent: {} }).agent", "Reflect.defineProperty(given, 'agent', {}) && given.agent",
    "+/agent: (\\d)/.exec(util.inspect(given, { depth: 0 }))[1]",
    "+/agent: (\\d)/.exec(util.formatWithOptions({ depth: 0 }, given))[1]",
  ]) {
    const module = moduleOf(context, `import util from "node:util";
export const setup = { agents: 2, buffers: [8] };
export default (given) => {
  const number = ${number};
  Atomics.store(new Int32Array(given.buffers[0]), number, number + 1);
  const { get, value, writable } = Object.getOwnPropertyDescriptor(Object.freeze(given), "agent");
  if (get !== undefined || value !== number || writable) throw new Error("another");
};
`);
    const { closed, finals, found } = await everySchedule({ ...FEW_WORKERS, module, seeds: 2 });
    assert.deepEqual({ closed, found }, { closed: true, found: [] });
    assert.deepEqual(finals.map(({ blocks }) => blocks), [["0100000002000000"]]);
  }
});

test("what stands for an object of the language is no proxy, in runs and where agents are learned", async (context) => {
  const module = moduleOf(context, `import { types } from "node:util";
export const setup = { agents: 1, buffers: [8] };
const all = [Date, DataView, Int32Array, Intl.DateTimeFormat, Proxy, SharedArrayBuffer, Symbol, types];
export default ({ buffers: [buffer] }) => {
  const words = new Int32Array(buffer);
  for (const one of [...all, words, buffer]) if (types.isProxy(one)) throw new Error("a proxy");
  if (types.isProxy(new Proxy({}, {}))) Atomics.store(words, 0, 1);
};
export const check = ([buffer]) => new Int32Array(buffer)[0] === 1;
`);
  const { closed, found, realRuns } = await everySchedule({ ...FEW_WORKERS, module, seeds: 2 });
  assert.deepEqual({ closed, found, realRuns }, { closed: true, found: [], realRuns: 2 });
});

test("a property that is defined reads no element, and calls no trap of a proxy", async (context) => {
  const module = moduleOf(context, `export const setup = { agents: 1, buffers: [8] };
export default ({ buffers: [buffer] }) => {
  const words = new Int32Array(buffer);
  Object.defineProperty(words, 1, { value: 5 });
  Object.defineProperties(words, { 1: { value: 6 } });
  const asked = [];
  const getOwnPropertyDescriptor = (object, key) => {
    asked.push(key);
    return Reflect.getOwnPropertyDescriptor(object, key);
  };
  Object.defineProperty(new Proxy({}, { getOwnPropertyDescriptor }), "one", { value: 1 });
  Atomics.store(words, 0, asked.length);
};
`);
  const { closed, finals, found, realRuns } = await everySchedule({ ...FEW_WORKERS, module, agents: 1, seeds: 2 });
  assert.deepEqual({ closed, found, realRuns }, { closed: true, found: [], realRuns: 2 });
  assert.deepEqual(finals.map(({ blocks }) => blocks), [["0000000006000000"]]);
});

test("a `check` finds its module as `init` has left it", async (context) => {
  const module = moduleOf(context, `let [calls, base] = [0, 0];
export const setup = { agents: 2, buffers: [8] };
export const init = () => void (base += 1);
export default ({ buffers: [buffer], agent }) => void Atomics.store(new Int32Array(buffer), 0, agent + 1);
export const check = ([buffer]) => {
  calls += 1;
  if (calls > 1 || base !== 1) throw new Error("called " + calls + " times, behind " + base);
  return Atomics.load(new Int32Array(buffer), 0) > 0;
};
`);
  const { closed, finalCount, found, freshened } = await everySchedule({ ...FEW_WORKERS, module, seeds: 2 });
  assert.deepEqual([closed, finalCount, found, freshened], [true, 2, [], true]);
});

test("a class that derives from an imported one looks like a class", async (context) => {
  const module = moduleOf(context, `import { inspect } from "node:util";
import { Base } from "./base.mjs";
export const setup = { agents: 1, buffers: [8] };
class Derived extends Base {}
export default ({ buffers: [buffer] }) => void Atomics.store(new Int32Array(buffer), 0, inspect(Derived).length);
`);
  writeFileSync(join(dirname(module), "base.mjs"), "export class Base {}\n");
  const { closed, finals, realRuns } = await everySchedule({ ...FEW_WORKERS, module, seeds: 2 });
  assert.deepEqual({ closed, realRuns }, { closed: true, realRuns: 2 });
  assert.deepEqual(finals.map(({ blocks }) => blocks), [["1c00000000000000"]]);
});

test("a file that node takes as CommonJS is refused by name", async (context) => {
  for (const [text, isTaken] of /** @type {[string, boolean][]} */ ([
    ["globalThis.more = 1;\n", false], ["exports.more = 1;\n", false], ["export const more = 1;\n", true],
  ])) {
    const module = moduleOf(context, `import "./side.js";\n${COUNTS}`);
    writeFileSync(join(dirname(module), "side.js"), text);
    const options = { ...FEW_WORKERS, module, seeds: 1 };
    if (isTaken) assert.equal((await everySchedule(options)).closed, true);
    else await assert.rejects(everySchedule(options), { message: /can't read side\.js: node takes it as CommonJS/ });
  }
});

test("emitters, and JSON of an object with a toJSON, do what the engine's do, and can be shown", async (context) => {
  const module = moduleOf(context, `import assert from "node:assert";
import { EventEmitter } from "node:events";
export const setup = { agents: 2, buffers: [8] };
class Lock extends EventEmitter {
  constructor(words) { super(); this.words = words; }
  lock() {
    while (Atomics.compareExchange(this.words, 0, 0, 1) !== 0) Atomics.wait(this.words, 0, 1, 5);
    this.emit("got", this, 1);
  }
  free() { Atomics.store(this.words, 0, 0); Atomics.notify(this.words, 0); return this.emit("free"); }
  toJSON(key) {
    this.lock();
    const { 1: count } = this.words;
    this.free();
    return { count, key, toJSON: () => 5, at: new Date(0) };
  }
}
export default ({ buffers }) => {
  const words = new Int32Array(buffers[0]), lock = new Lock(words), said = [];
  const once = function (...given) { said.push("once", given.length); lock.off("got", last); };
  const last = () => said.push("last");
  lock.once("got", once).on("got", function (self, n) { said.push(this === self, n); words[1] += n; }).on("got", last);
  lock.lock();
  assert.strictEqual(lock.free(), false);
  assert.deepStrictEqual(said, ["once", 2, true, 1, "last"]);
  const { count, key, at, toJSON } = JSON.parse(JSON.stringify(lock, null, 1));
  assert.ok(count >= 2 && count <= 4);
  assert.deepStrictEqual([key, at, toJSON], ["", "1970-01-01T00:00:00.000Z", undefined]);
  assert.strictEqual(JSON.stringify({ toJSON: (key) => new Date(0) }), "{}");
  assert.strictEqual(JSON.stringify({ toJSON() {} }), undefined);
  assert.throws(() => lock.emit("error", new RangeError("mine")), /^RangeError: mine/);
  assert.throws(() => lock.on("bad", () => { throw new URIError("its"); }).emit("bad"), /^URIError: its/);
};
`);
  const { closed, found, hidden } = await everySchedule({ ...FEW_WORKERS, module, seeds: 2 });
  assert.deepEqual({ closed, found, hidden }, { closed: true, found: [], hidden: [] });
});

test("what `check` finds is the same in a real run, except for numbers", async (context) => {
  const fails = `import assert from "node:assert/strict";
${COUNTS}const lock = {};
export const check = ([buffer]) => {
  if (new Int32Array(buffer)[0] === 2) lock.missing(new Int32Array(buffer)[0]);
  assert(false);
};
`;
  const { found } = await everySchedule({ ...FEW_WORKERS, module: moduleOf(context, fails), seeds: 2 });
  const title = "threw TypeError: lock.missing is not a function";
  assert.deepEqual(found.map(({ kind, text }) => [kind, text]), [["check", title]]);
  const ran = (/** @type {string} */ detail) => /** @type {any} */ ({ ending: "check", detail, races: [] });
  const finding = /** @type {any} */ ({ kind: "check", text: "threw Error: 3 are left" });
  const details = ["check threw Error: 4 are left", "check threw Error: none is", "check returned false"];
  assert.deepEqual(details.map((detail) => isShownBy(finding, ran(detail))), [true, false, false]);
});

test("what `init` and `check` keep is theirs, and what agents keep is the agents'", async (context) => {
  const module = moduleOf(context, `let kept = 0;
export const setup = { agents: 2, buffers: [8] };
export const init = () => { kept = 4; };
export default function agent({ buffers, agent: self }) {
  kept += 1;
  Atomics.store(new Int32Array(buffers[0]), self, kept);
}
export const check = () => kept === 4;
`);
  const { finals, found, realRuns } = await everySchedule({ ...FEW_WORKERS, module, seeds: 3 });
  assert.deepEqual({ found, realRuns }, { found: [], realRuns: 3 });
  assert.deepEqual(finals.map(({ blocks }) => blocks), [["0100000001000000"]]);
});

test("an error whose message has the text of a stack is found as real runs show it", async (context) => {
  const throws = `export const setup = { agents: 2, buffers: [4] };
const fails = (text) => { throw new Error(text); };
function caught() { try { return [1].map(() => fails("lost")); } catch (error) { return error.stack; } }
export default function agent({ buffers }) {
  if (Atomics.add(new Int32Array(buffers[0]), 0, 1) === 1) fails(\`late: \${caught()}\`);
}
export const check = () => fails(caught());
`;
  const { found } = await everySchedule({ ...FEW_WORKERS, module: moduleOf(context, throws), seeds: 2 });
  assert.deepEqual(found.map(({ kind, text }) => [kind, text]), [["threw", "Error: late: Error: lost"]]);
  const checked = moduleOf(context, throws.replace("=== 1", "=== 2"));
  const { found: [other] } = await everySchedule({ ...FEW_WORKERS, module: checked, seeds: 2 });
  assert.deepEqual([other.kind, other.text], ["check", "threw Error: Error: lost"]);
});

test("an agent is called without an object", async (context) => {
  const module = moduleOf(context, `export const setup = { agents: 2, buffers: [4] };
export default function agent({ buffers }) {
  Atomics.add(new Int32Array(buffers[0]), 0, this === undefined ? 1 : 2);
}
`);
  const { finals, realRuns } = await everySchedule({ ...FEW_WORKERS, module, seeds: 2 });
  assert.deepEqual([finals.map(({ blocks }) => blocks), realRuns], [[["02000000"]], 2]);
});

test("an error whose text is its own, or can't be made, is found as real runs show it", async (context) => {
  for (const own of ["return 'E!';", "throw new Error('no text');"]) {
    const throws = `class E extends Error { toString() { ${own} } }
export const setup = { agents: 2, buffers: [4] };
export default ({ buffers }) => { if (Atomics.add(new Int32Array(buffers[0]), 0, 1) === 1) throw new E("x"); };
`;
    const { found } = await everySchedule({ ...FEW_WORKERS, module: moduleOf(context, throws), seeds: 2 });
    assert.deepEqual(found.map(({ kind, text }) => [kind, text]), [["threw", "Error: x"]]);
  }
});
