// The realm in which agents are learned: the objects of the language and of node keep nothing there.

import assert from "node:assert/strict";
import { once } from "node:events";
import { before, describe, test } from "node:test";
import { pathToFileURL } from "node:url";
import { Worker } from "node:worker_threads";
import graphFlags from "../../lib/program/node/graph-flags.cjs";
import { fileIn, temporaryFolder } from "../helpers/common.mjs";

/** What changes an object of the language or of node, in all ways in which that can be written. */
const CHANGES = [
  "Math.more = 1", "Math['more'] = 1", "Math[name()] = 1", "Math.abs ||= 1", "Math.abs &&= 1", "Math.abs ??= 1",
  "Math.PI += 1", "Math.abs++", "--Math.abs", "delete Math.abs", "delete Math?.abs", "delete Math[name()]",
  "(0, Math).more = 1", "[Math.more] = [1]", "[...Math.more] = [1]", "({ a: Math.more } = { a: 1 })",
  "({ a: Math.more = 2 } = {})", "({ ...Math.more } = { a: 1 })", "[[Math.more]] = [[1]]",
  "(function* () { for (Math.more of [1]) break; })().next()",
  "(function* () { for (Math.more in { a: 1 }) break; })().next()",
  "(function* () { for ([Math.more] of [[1]]) break; })().next()", "const { a = (Math.more = 1) } = {}",
  "((a = (Math.more = 1)) => a)()", "(function* () { Math.more = 1; })().next()", "const { abs } = Math; abs.more = 1",
  "Math.max.more = 1", "Array.prototype.push.more = 1", "globalThis.more = 1", "globalThis.Math = 1",
  "Int32Array.prototype.more = 1", "URIError.more = 1", "console.log.more = 1",
  "Object.getPrototypeOf(''[Symbol.iterator]()).more = 1", "Object.getPrototypeOf(async () => {}).more = 1",
  "Object.getOwnPropertyDescriptor(Map.prototype, 'size').get.more = 1", "process.env.MORE = '1'", "process.title = ''",
  "Error['stackTrace' + 'Limit'] = 1", "Error.stackTraceLimit = 1", "Error.prepareStackTrace = () => 1",
  "({ __proto__: Math, set() { super.more = 1; } }).set.call(Math)",
  "({ set() { super['more'] += 1; } }).set.call(Math)", "({ set() { [super.more] = [1]; } }).set.call(Math)",
  "new (class extends Back { more = 1; })(Math)", "new (class extends Back { #more = 1; })(Math)",
  "new (class extends Back { #more() {} })(JSON)", "new (class extends Back { get #more() { return 1; } })(JSON)",
  "new (class extends Back { constructor() { super(Math); this.more = 1; } })()", "Object.assign(Math, { more: 1 })",
  "Object.defineProperty(Math, 'more', { value: 1 })", "Object.defineProperties(Math, { more: { value: 1 } })",
  "Object.setPrototypeOf(Math, null)", "Object.freeze(Math)", "Object.seal(Math)", "Object.preventExtensions(Math)",
  "Reflect.set(Math, 'more', 1)", "Reflect.set({}, 'more', 1, Math)",
  "Reflect.defineProperty(Math, 'more', { value: 1 })", "Reflect.deleteProperty(Math, 'abs')",
  "Reflect.setPrototypeOf(Math, null)", "Reflect.preventExtensions(Math)", "Math.__proto__ = null",
  "Object.getOwnPropertyDescriptor(Object.prototype, '__proto__').set.call(Math, null)",
  "Math.__defineGetter__('more', () => 1)", "Object.prototype.__defineSetter__.call(Math, 'more', () => 1)",
  "Error.captureStackTrace(Math)", "Array.prototype.push.call(Math, 1)", "Array.prototype.push(1)",
  "[1].forEach(Array.prototype.push, Math)", "Array.prototype.unshift.call(Array.prototype, 1)",
  "Array.prototype.splice.call(Math, 0, 0, 1)", "Array.prototype.fill.call({ __proto__: null }.x ?? Math, 1)",
  "Array.prototype.sort.call(Math)", "Array.prototype.reverse.call(Math)", "Array.prototype.pop.call(Math)",
  "Array.prototype.shift.call(Math)", "Array.prototype.copyWithin.call(Math, 0)", "new Proxy(Math, {})",
  "Proxy.revocable(Math, {})", "JSON.parse('{\"a\":1,\"b\":1}', function (k, v) { this.b = console; return v && 1; })",
  "util.inherits(Math.max, Array)", "util.inspect.colors.more = 1", "util.inspect.defaultOptions.depth = 1",
  "util.inspect.defaultOptions = {}", "assert.more = 1", "path.posix.more = 1",
  "EventEmitter.prototype.on.call(Math, 'a', () => {})", "EventEmitter.defaultMaxListeners = 1",
  "RegExp.prototype[Symbol.search].call(Math)",
  "Array.from.call(function made() { return URIError; }, [1])",
  "Array.of.call(function made() { return URIError; }, 1)",
  "new EventEmitter().constructor.prototype.more = 1", "(() => 0).constructor.more = 1", "fs.more = 1",
];

/** What is kept out of sight, or looks at a clock or at chance, or begins something that ends later. */
const REACHES = [
  // Functions and prototypes to which no name leads.
  "Date.UTC.more = 1", "Proxy.revocable({}, {}).revoke.more = 1", "assert.AssertionError.prototype.more = 1",
  "Object.getPrototypeOf(new URLSearchParams().keys()).more = 1",
  "(() => { try { path.join(1); } catch (e) { Object.getPrototypeOf(e).more = 1; } })()",
  "((tag) => new (class extends Back { #more = 1; })(tag`a`))((list) => list)",
  "RegExp.$1", "RegExp['$&']", "RegExp.lastMatch", "RegExp.input = 'a'", "Reflect.get(RegExp, '$2')",
  "(class extends RegExp {}).$1", "Object.getOwnPropertyDescriptor(RegExp, 'lastParen').get.call(RegExp)", "eval('1')",
  "(0, eval)('1')", "Function('return 1')", "new Function('')", "(() => 0).constructor('')",
  "(async () => 0).constructor('')", "Object.getPrototypeOf((function* () {}).constructor)('')",
  "Object.getPrototypeOf(Function.prototype.constructor)?.constructor('')", "new (class extends Function {})('')",
  "String(CHANGED)", "CHANGED + ''", "Function.prototype.toString.call(CHANGED)", "String(class {})",
  "String(Array.prototype.push)", "setTimeout(() => {}, 0)", "setInterval(() => {}, 0)", "setImmediate(() => {})",
  "queueMicrotask(() => {})", "setTimeout.name", "new WeakRef({})", "process.nextTick(() => {})", "process.exit()",
  "process.on('exit', () => {})", "process.memoryUsage()", "process.pid", "process.title", "process.argv0",
  "process.binding('fs')", "process.stdout.end()", "fetch('')", "crypto.subtle",
  "new MessageChannel()", "WebAssembly.Module()", "AbortSignal.timeout(1)", "new Event('a').timeStamp",
  "util.inspect(new Event('a'))", "util.format('%o', [new CustomEvent('a')])",
  "new Intl.DateTimeFormat().format()", "new Intl.DateTimeFormat().formatToParts()",
  "performance.mark('a')", "Buffer.allocUnsafe(1)",
  "new TextDecoder().decode(new Uint8Array(1), { stream: true })", "util.debuglog('a', () => {})",
  "threads.threadId", "threads.parentPort.on", "new threads.Worker('')",
  "hooks.monitorEventLoopDelay()", "generateKeySync('aes', { length: 128 })", "fs.readFileSync.name",
  "fs.readFileSync('a')", "EventEmitter.setMaxListeners(1)", "EventEmitter.on.name", "os.cpus()", "timers.setTimeout()",
  "new FinalizationRegistry(() => {}).unregister({})", "new console.Console()", "console._stdout",
];

/** What code may do, and what it has then. @type {Record<string, string>} */
const ALLOWED = {
  "(() => 0).constructor === Function": "true",
  "(() => 0) instanceof Function": "true",
  "typeof setTimeout": "'function'",
  "typeof fetch": "'function'",
  "typeof crypto": "'object'",
  "typeof process": "'object'",
  "typeof window": "'undefined'",
  "typeof require": "'undefined'",
  "typeof self": "'undefined'",
  "typeof WeakRef": "'function'",
  "setTimeout === later": "true",
  "neverBound": "neverBound is not defined",
  "neverBound = 1": "neverBound is not defined",
  "globalThis.setTimeout === later": "true",
  "process.arch.length > 0": "true",
  "process.versions.node === process.version.slice(1)": "true",
  "process.env.PATH?.length > 0": "true",
  "process.cwd().length > 0": "true",
  "process instanceof EventEmitter": "true",
  "console.log(1, {}) ?? console.table([1]) ?? console.assert(true)": "undefined",
  "process.stdout.write('a')": "true",
  "({ __proto__: null }).__proto__": "undefined",
  "({}).__proto__ === Object.prototype": "true",
  "Object.assign({}, { a: 1 }).a": "1",
  "Object.isExtensible(Math) && !Object.isFrozen(Math)": "true",
  "const o = {}; o.__defineGetter__('a', () => 1); return o.a": "1",
  "[3, 1, 2].sort().push(4)": "4",
  "JSON.parse('[1, 2]', (k, v) => (typeof v === 'number' ? v + 1 : v))": "[ 2, 3 ]",
  "Error.stackTraceLimit": "10",
  "new (class extends Back { more = 1; })({}).more": "1",
  "new (class extends Array { #a = 2; b() { return this.#a; } })().b()": "2",
  "let o = { a: 1 }; delete o?.a; return o.a": "undefined",
  "let o = { a: [1, 2] }; [o.b, ...o.c] = o.a; return o.c[0] + o.b": "3",
  "let o = {}; (function* () { for (o.a of [1, 2]); })().next(); return o.a": "2",
  "({ a: 1, set(v) { super.a = v; return this.a; } }).set(3)": "3",
  "undefined.a = 1": "Cannot set properties of undefined (setting 'a')",
  "Math[Symbol.toStringTag]": "'Math'",
  "new Error('a', { cause: 1 }).cause": "1",
  "threads.isMainThread": "false",
  "threads.workerData": "null",
  "threads.parentPort !== null": "true",
  "Buffer.from('ab').toString('hex')": "'6162'",
  "Buffer.concat([Buffer.from('a'), Buffer.alloc(1)]).length": "2",
  "createHash('md5').update('a').digest('hex').slice(0, 4)": "'0cc1'",
  "new URL('file:///x').pathname": "'/x'",
  "new Intl.NumberFormat('en').format(1000)": "'1,000'",
  "new Intl.DateTimeFormat('en', { timeZone: 'UTC' }).format(0)": "'1/1/1970'",
  "new DOMException('a', 'AbortError').name": "'AbortError'",
  "new AbortController().signal.aborted": "false",
  "String(Math.max)": "'function max() { [native code] }'",
  "let n = 0; const e = new EventEmitter(); e.on('a', () => { n += 1; }); e.emit('a'); return n": "1",
  "typeof Atomics.waitAsync": "'function'",
  "hooks.performance === performance": "true",
  "path.join('a', 'b')": "'a/b'",
  "new TextDecoder().decode(new Uint8Array([65]))": "'A'",
  "typeof new FinalizationRegistry(() => {}).register({}, 1)": "'undefined'",
  "const { exit } = process; return typeof exit": "'function'",
  "util.format('%d', 1)": "'1'",
  "util.inspect([[[new Event('a')]]])": "'[ [ [ Event ] ] ]'",
  "'abc'.search(/c/) + /b/[Symbol.search]('ab')": "3",
  "Array.from.call((n) => n, [1, 2]).length": "2",
  "(class More extends Array {}).from([1, 2]).constructor.name": "'More'",
  "Array.of.call(function made(n) { this.n = n; }, 4, 5).n": "2",
  "util.debuglog('a')('%s', 1) ?? util.debug('b').enabled": "false",
  "let n = 0; console.count({ toString() { n += 1; return ''; } }); return n": "1",
  "let n = 0; console.timeLog({ toString() { n += 1; return ''; } }); return n": "1",
  "let n = 0; console.assert(true, { [util.inspect.custom]: () => (n += 1) }); return n": "0",
  "let n = 0; console.assert(false, { [util.inspect.custom]: () => `${n += 1}` }); return n": "1",
  "let n = 0; console.dir({ [util.inspect.custom]: () => (n += 1) }); return n": "0",
  "let n = 0; console.timeStamp({ [util.inspect.custom]: () => (n += 1) }); return n": "0",
  "Object.keys(paths)[0]": "'_makeLong'",
  "paths[Symbol.toStringTag]": "'Module'",
  "util.deprecate((n) => n + 1, 'a')(1)": "2",
};

const REFUSED_CHANGE = /^refused: it (?:changes|sets|makes a proxy of) /;

/** @param {string} code an expression, or statements that return something @returns {string} a member that runs it */
function memberOf(code) {
  const body = /^(?:for|const|let) /.test(code) ? code : `return (${code})`;
  return `  ${JSON.stringify(code)}: () => { ${body}; },`;
}

const BEGINS = `import assert from "node:assert";
import { createHash, generateKeySync } from "node:crypto";
import { EventEmitter } from "events";
import fs from "node:fs";
import os from "node:os";
import path, * as paths from "node:path";
import hooks from "node:perf_hooks";
import timers from "node:timers";
import util from "node:util";
import threads from "node:worker_threads";
const later = setTimeout;
const name = () => "abs";
const CHANGED = () => 1;
class Back { constructor(object) { return object; } }
`;

describe("objects of the language and of node", () => {
  /**
   * @type {{ results: [string, string][], looks: string[], unknown: string[], kept: string[], hasChanged: boolean }}
   */
  let found;
  /** @type {Map<string, string>} */
  let results;

  before(async () => {
    const codes = [...CHANGES, ...REACHES, ...Object.keys(ALLOWED)].map(memberOf);
    const text = `${BEGINS}export default () => ({\n${codes.join("\n")}\n});\n`;
    const url = pathToFileURL(fileIn(temporaryFolder(), "ways.mjs", text)).href;
    const file = new URL("../helpers/closed-realm-worker.mjs", import.meta.url);
    const worker = new Worker(file, { workerData: { url }, execArgv: [...graphFlags.GRAPH_FLAGS, "--no-warnings"] });
    [found] = await once(worker, "message");
    results = new Map(found.results);
  });

  test("each write to one of them is refused", () => {
    assert.deepEqual(CHANGES.filter((code) => !REFUSED_CHANGE.test(results.get(code) ?? "")), []);
    assert.equal(found.hasChanged, false);
  });

  test("what is kept out of sight is refused, and what looks at a clock or at chance", () => {
    assert.deepEqual(REACHES.filter((code) => !/^refused: it /.test(results.get(code) ?? "")), []);
  });

  test("what keeps nothing is as it was", () => {
    assert.deepEqual(Object.fromEntries(Object.keys(ALLOWED).map((code) => [code, results.get(code)])), ALLOWED);
  });

  test("all that can be reached is known, and none has a state of its own", () => {
    assert.deepEqual([found.unknown, found.kept], [[], []]);
  });

  test("what stands for the engine's own looks like it", () => {
    assert.deepEqual(found.looks, []);
  });
});
