// Places in which an agent keeps something: what declares one, what changes it, and what reads a small number of it.
// `@` stands for a name that is new, and `EXPR` for an expression.

/** @type {readonly (readonly [string, string, string])[]} */
export const HOLDERS = [
  // Private members of classes.
  ["const @ = new (class { #n = 0; #bump(x) { this.#n = (this.#n + x) & 7; return this; } "
    + "bump(x) { return this.#bump(x).#bump(1); } get n() { return this.#n; } })();", "@.bump(EXPR);", "@.n"],
  ["const @ = ((n) => { class C { #set(x) { n = x & 7; } set(x) { this.#set(x); } get #n() { return n; } "
    + "read() { return this.#n; } } return new C(); })(1);", "@.set(EXPR);", "@.read()"],
  ["class @ { static #n = 0; static #put(x) { this.#n = x & 3; } static set(x) { this.#put(x); } "
    + "static get n() { return @.#n; } }", "@.set(EXPR);", "@.n"],
  ["const @ = new (class { #n = 0; get #half() { return this.#n >> 1; } set #half(x) { this.#n = x & 7; } "
    + "put(x) { this.#half = x; } take() { return this.#half; } })();", "@.put(EXPR);", "@.take()"],
  ["class @ { #k; constructor(k) { this.#k = k; } static of(o) { return #k in o ? o.#k & 7 : 0; } }\nlet @o = {};",
    "@o = (EXPR) & 1 ? new @(2) : {};", "@.of(@o)"],
  // Fields of classes with functions, and static blocks.
  ["const @ = new (class { n = 0; set = (x) => { this.n = x & 7; }; read = () => this.n; })();", "@.set(EXPR);",
    "@.read()"],
  ["class @ { static n = 0; static { this.put = (x) => { @.n = x & 3; }; } static read = () => @.n; }", "@.put(EXPR);",
    "@.read()"],
  ["const @ = (k) => class { static k = k; own = k + 1; read() { return this.own * 2 + (k & 1); } };\n"
    + "let @i = new (@(0))();", "@i = new (@(EXPR & 3))();", "(@i.read() & 7)"],
  // Weak collections with keys of all sorts.
  ["const @ = new WeakMap(), @k = {};", "@.set(@k, EXPR & 3);", "(@.get(@k) ?? 0)"],
  ["const @ = new WeakMap();", "@.set(words.buffer, EXPR & 3);", "(@.get(words.buffer) ?? 0)"],
  ["const @ = new WeakMap();", "@.set(words, EXPR & 3);", "(@.get(words) ?? 0)"],
  ["const @ = new WeakMap();", "@.set(Word, EXPR & 3);", "(@.get(Word) ?? 0)"],
  ["const @ = new WeakMap(), @f = () => {};", "@.set(@f, EXPR & 3);", "(@.get(@f) ?? 0)"],
  ["const @ = new WeakSet(), @k = [];", "if (EXPR & 1) @.add(@k); else @.delete(@k);", "(@.has(@k) ? 1 : 0)"],
  ["const @ = new WeakMap(), @k = [{}, {}];", "@.set(@k[0], @k[EXPR & 1]); @.set(@k[1], 1);",
    "(@.get(@.get(@k[0]) ?? {}) === 1 ? 1 : 0)"],
  // Bound functions, and closures in odd places.
  ["let @ = (x) => x;", "@ = ((x, y) => (x + y) & 7).bind(null, EXPR);", "(@(1) | 0)"],
  ["const @ = []; const @push = @.push.bind(@);", "@push(EXPR & 3);", "(@.at(-1) ?? 0)"],
  ["let @ = ((a) => (b) => (c) => (a + b + c) & 7)(0);", "@ = ((a) => (b) => (c) => (a + b + c) & 7)(EXPR);",
    "@(1)(1)"],
  ["let @ = () => 0;", "{ const old = @, y = EXPR & 1; @ = () => (old() + y) & 3; }", "@()"],
  ["const @ = [];", "{ const y = EXPR; for (let j = 0; j < 2; j += 1) @[j] = () => (j + y) & 7; }", "(@[1]?.() ?? 0)"],
  ["const @ = function go(k) { go.last = k & 3; return k <= 0 ? 0 : go(k - 2); };", "@(EXPR & 3);", "(@.last ?? 0)"],
  ["const @ = {};", "{ const y = EXPR; Object.defineProperty(@, \"k\", { get: () => y & 3, configurable: true }); }",
    "(@.k ?? 0)"],
  ["let @ = { read: null };", "{ const y = EXPR; @ = { read(x = () => y) { return x() & 3; } }; }",
    "(@.read?.() ?? 0)"],
  // Objects and what they inherit.
  ["const @ = { n: 0, get v() { return this.n; }, set v(x) { this.n = x & 3; } };", "@.v = EXPR;", "@.v"],
  ["let @ = Object.create({ k: 1 });", "Object.setPrototypeOf(@, { k: EXPR & 3 });", "@.k"],
  ["const @ = { p: 1, q: 2 };", "if (EXPR & 1) { delete @.p; @.p = 1; }", "(Object.keys(@)[0] === \"p\" ? 1 : 0)"],
  ["const @ = { k: 1 };", "if (EXPR & 1) Object.freeze(@);", "(Object.isFrozen(@) ? 1 : 0)"],
  ["const @ = { k: 1 };", "if (EXPR & 1) Object.preventExtensions(@);", "(Object.isExtensible(@) ? 0 : 1)"],
  ["const @s = Symbol(\"s\"), @ = {};", "@[@s] = EXPR & 3;", "(@[@s] ?? 0)"],
  ["class @ { get v() { return 1; } }\nconst @o = new @();",
    "if (EXPR & 1) Object.defineProperty(@.prototype, \"v\", { value: 2, configurable: true });", "@o.v"],
  ["class @A { v() { return 1; } }\nclass @ extends @A { v() { return super.v() + 1; } }\nconst @o = new @();",
    "if (EXPR & 1) Object.setPrototypeOf(@.prototype, { v: () => 4 });", "@o.v()"],
  ["const @ = { get v() { Object.defineProperty(this, \"v\", { value: 3, writable: true }); return 1; } };",
    "if (EXPR & 1) @.v;", "@.v"],
  ["let @ = { a: { b: [0] } };", "@ = { ...@, a: { ...@.a, b: [...@.a.b, EXPR & 3].slice(-2) } };",
    "(@.a.b.at(-1) ?? 0)"],
  ["let @ = null;", "if (EXPR & 1) @ = { next: @ };", "(@ === null ? 0 : @.next === null ? 1 : 2)"],
  // Collections, arrays and their iterators.
  ["const @ = new Map([[\"a\", { n: 0 }], [\"b\", { n: 0 }]]);", "@.get(EXPR & 1 ? \"a\" : \"b\").n += 1;",
    "(@.get(\"a\").n & 3)"],
  ["const @ = new Set();", "@.add(EXPR & 3);", "([...@].at(-1) ?? 0)"],
  ["const @ = [3, 1, 2, 0, 3].values();", "if (EXPR & 1) @.next();", "(@.next().value ?? 5)"],
  ["const @ = new Map([[1, 2], [2, 3], [3, 0]]).entries();", "if (EXPR & 1) @.next();", "(@.next().value?.[1] ?? 5)"],
  ["const @ = [1, 2, 3];", "if (EXPR & 1) delete @[1];", "(1 in @ ? 1 : 0)"],
  ["const @ = [];", "@.length = EXPR & 3;", "@.length"],
  ["const @ = [[0, 1], [2, 3]];", "[@[0], @[1]] = EXPR & 1 ? [@[1], @[0]] : @;", "@[0][0]"],
  ["const @ = (function () { return arguments; })(0, 1);", "@[0] = EXPR & 3;", "@[0]"],
  ["const @ = { at: 0, next() { this.at += 1; return { done: this.at > 3, value: this.at }; }, "
    + "[Symbol.iterator]() { return this; } };", "if (EXPR & 1) @.next();", "[...@].length"],
  // Values that look alike, and other kinds of objects.
  ["let @ = 0;", "if (EXPR & 1) @ = -0;", "(Object.is(@, -0) ? 1 : 0)"],
  ["let @ = 0n;", "@ = (BigInt(EXPR) << 60n) + 1n;", "Number((@ >> 60n) & 3n)"],
  ["let @ = \"\";", "@ = (@ + String(EXPR & 3)).slice(-3);", "((@.codePointAt(0) ?? 0) & 3)"],
  ["const @ = /[0-9]/g;", "@.lastIndex = EXPR & 3;", "Number(@.exec(\"0123456\")?.[0] ?? 9)"],
  ["const @ = new Date(0);", "@.setTime(EXPR & 3);", "@.getTime()"],
  ["const @ = new Uint8Array(4);", "@[EXPR & 3] += 1;", "(@[1] & 3)"],
  ["const @ = new DataView(new ArrayBuffer(8));", "@.setInt16(1, EXPR & 3);", "@.getInt8(2)"],
  ["let @;", "try { throw new RangeError(String(EXPR & 3), { cause: 1 }); } catch (error) { @ = error; }",
    "Number(@?.message ?? 0)"],
  // Ways through statements.
  ["let @ = 0; const @f = (k) => { try { if (k & 1) return k; throw k; } catch (x) { @ = x & 3; return 0; } "
    + "finally { @ += 1; } };", "@ = (@ + @f(EXPR)) & 7;", "@"],
  ["let @ = 0;", "for (const x of [1, 2, 3]) { try { if (x === (EXPR & 3)) continue; @ = (@ + x) & 7; } "
    + "finally { @ ^= 1; } }", "@"],
  ["let @ = 0;", "@o: for (const a of [1, 2]) { for (const b of [1, 2]) { if (((a ^ b ^ EXPR) & 1) === 0) continue @o; "
    + "@ = (@ + a * b) & 7; if (@ > 5) break @o; } }", "@"],
  ["let @ = 0;", "switch (EXPR & 3) { case 0: @ += 1; case 1: { @ += 2; break; } case 2: default: @ ^= 1; }",
    "(@ & 7)"],
  ["let @ = 0;", "for (const [k, v] of new Map([[1, 2], [EXPR & 3, 1]])) { @ = (@ + k * v) & 7; "
    + "Atomics.load(words, 0); }", "@"],
  ["let @ = 0;", "for (const x of new Set([1, EXPR & 3])) @ = (@ + x + Atomics.load(words, 1)) & 7;", "@"],
];
