// A rewritten program is the same program: it says the same as the program that was written.

import assert from "node:assert/strict";
import { test } from "node:test";
import { temporaryFolder } from "../helpers/common.mjs";
import { saidByBoth } from "../helpers/rewritten-module.mjs";

/** Bodies of functions that say something, by what they try. No line has a semicolon that may be left out. */
const WITHOUT_SEMICOLONS = {
  "a member that a call's value is assigned to": `
    let a = [0, 0], n = 0
    const f = () => (n += 1)
    n = 5
    a[0] = f()
    a.more = f(a[0], f())
    say(a[0], a.more, n)`,
  "a change of a member, and an update": `
    const o = { n: 1, k: "n" }
    const key = () => o.k
    let b = o
    o[key()] += key().length
    let c = b
    o[key()]++
    o
    ++o[key()]
    say(o.n, c === o)`,
  "a call of a member with calls in it": `
    const o = { m: (x) => x + 1, f: () => 2 }
    let b = o.f
    o.m(o.f(b()))
    say(b(), o.m(b(o.f())))`,
  "functions, classes and objects at the beginnings of lines": `
    let b = 1
    var f = function () { return b }
    say(f())
    let g = () => 2
    class A { m() { return 3 } }
    say(g(), new A().m())
    let o = { m() { return 4 } }
    o = { m() { return 5 } }
    say(o.m())`,
  "\`return\` at the end of a line and of a block": `
    const f = (x) => { if (x) return
      say("not returned"); return }
    const g = () => {
      return
      say("never")
    }
    say(f(1), f(0), g())`,
  "a line's end after \`break\` and \`continue\`": `
    let n = 0
    l: for (;;) { n++
      if (n < 3) continue
      l
      if (n > 4) break
      l
    }
    var l = 3
    say(n, l)`,
  "a body without braces": `
    let n = 0
    const f = () => (n += 1)
    const o = {}
    if (n === 1) o.a = f()
    else o.b = f(f())
    while (n < 5) o.c = f()
    for (let i = 0; i < 2; i++) o[i] = f(o.c)
    for (const k in o) say(k), o[k] = f(n)
    for (const k of [1, 2]) o[k] = f(k)
    do o.d = f(f())
    while (n < 30) say(n)
    m: o.e = f(f())
    say(JSON.stringify(o))`,
  "a \`try\` on one line": `
    const f = (x) => { try { return x } finally { say("f") } }
    const g = (x) => { try { if (x) return; say("g") } finally { say(x) } }
    const h = () => { try { throw 1 } catch (x) { return say(x) } finally { say(2) } }
    say(f(1), g(0), g(1), h())`,
  "fields of classes": `
    const k = "x"
    class A {
      a = [1]
      [k] = 2
      static b
      ["c"]() { return 4 }
      static
      d = 5;
      'e'
      get
      *g() { yield 6 }
    }
    const o = new A
    say(JSON.stringify(o), JSON.stringify(Object.keys(A)), o.c(), [...o.g()][0])`,
  "declarations and directives": `
    "use strict"
    let
      a = 1, b
    const c = 2
    var [d] = [3]
    let { e } = { e: 4 }
    say(a, b, c, d, e, (function () { "use strict"
      return this })())`,
  "regular expressions and templates": `
    let a = /x;/
    let b = \`;\`
    let n = a.test("x;") ? say(b) : 0
    say(n)
    let s = ";"
    say(s)`,
  "what is said behind comments": `
    let a = [] // ;
    a[0] = say(1) /* ; */
    a.b = say(2) /*
    */ a.c = say(3)
    say(a.length) // the end`,
};

/** Bodies of functions that go by what a rewritten text could change. */
const BODIES = {
  "values of members that are assigned and updated": `
    const o = { n: 1, get g() { return say(this.n); }, set g(v) { this.n = say(v) * 2; }, b: 5n, t: "7" };
    const f = (k) => (say(k), o);
    say(f(1).n = f(2).g = 3, o.n++, ++o.n, o.g--, --f(3).g, o.b++, --o.b, o.t++, o.missing++, o?.n);
    const l = [1, 2]; let i = 0; say(l[i++]++, l[i]--, -l[i++]++, typeof ++l[0], l, i);
    class P { #n = 1; m() { return this.#n++ + ++this.#n * 10; } k() { return (this.#n = 4) + this.#n; } }
    const p = new P(); say(p.m(), p.k(), (o.q = () => 0).name, (o.r = class {}).name);
    try { Object.freeze(o).n++; } catch (e) { say(e.message); }
    try { say(o.n = say(9)); } catch (e) { say(e.message); }
    try { say(undefined.x++); } catch (e) { say(e.message); }`,
  "promises that are made, and what settles them": `
    const ends = (p) => p.catch(() => {});
    let r; const p = new Promise((resolve, reject) => { say(resolve.length, resolve.name, "prototype" in resolve,
      resolve(1), reject(2), resolve === reject, typeof reject); r = resolve; return 7; });
    say(p, r(3), p instanceof Promise, new Promise((resolve) => { resolve(p); resolve(2); }) === p);
    let reads = 0; new Promise((resolve) => { resolve({ get then() { reads += 1; return undefined; } }); say(reads); });
    ends(new Promise(() => { throw 5; })); ends(new Promise((_, reject) => { reject(say(4)); throw 5; }));
    for (const bad of [undefined, 5, {}, [() => {}]]) try { new Promise(bad); } catch (e) { say(e.message); }
    try { Promise(() => {}); } catch (e) { say(e.message); }
    class Own extends Promise {} say(new Own((resolve) => resolve(2)).constructor.name);
    say(new Promise(function () { say(this, arguments.length); }));`,
  "sets and maps that are made of other things": `
    const it = (...list) => ({ [Symbol.iterator]: () => ({ return: () => say("closed") && {},
      next: () => list.length ? { value: list.shift() } : { done: true } }) });
    say(new Set(it(1, 2, 1)), new Map(it([1, 2], [1, 3], { 0: 4, 1: 5 }, (a) => a)), new Set(), new Set(null),
      new Set("aba"), new Map(new Map([[1, 2]])), new Set(new Set([3])), new Map([]), new Set([1, 1]));
    for (const bad of [5, {}, it(1), it(null), { [Symbol.iterator]: 5 }, { [Symbol.iterator]: () => 5 }]) {
      try { say(new Map(bad)); } catch (e) { say(e.message); }
      try { say(new Set(bad)); } catch (e) { say(e.message); }
    }
    { class Set { constructor(x) { say(x); } } new Set(3); }`,
  "what patterns take of other things": `
    const it = (...list) => ({ [Symbol.iterator]: () => ({ return: () => say("closed") && {},
      next: () => say("next") && list.length ? { value: list.shift() } : { done: true } }) });
    { const [a] = it(1, 2); say(a); } { let [a, b, c] = it(1, 2); say(a, b, c); }
    { const [a, ...b] = it(1, 2, 3); say(a, b); }
    { const [...a] = it(); say(a); } { var [d, e] = "\u{1f600}b"; say(d, e); } { const [a, b] = [1, 2]; say(a + b); }
    { const list = [1, 2]; const [a, ...b] = list; say(a, b); } { const [a] = new Set([3]); say(a); }
    { const [[a, b]] = new Map([[4, 5]]); say(a, b); } { const [a, b] = it(1, 2, 3); const f = () => a + b; say(f()); }
    { class L extends Array { *[Symbol.iterator]() { yield 7; } } const l = L.of(1); const [a] = l; say(a); }
    for (const bad of [null, undefined, 5, {}]) try { const [a] = bad; say(a); } catch (e) { say(e.name); }`,
  "fields of classes that call something": `
    class A { a = say(1); b = this.a + say(2); #c = say(3); static s = say(4); d; e = () => say(this.#c);
      f = class { static g = say(5); }; h = ((x) => x + this.a)(say(6)) }
    class B extends A { k = say(new.target === undefined, typeof this.f); constructor(n) { super(); this.n = n; } }
    class C extends B { l = super.toString === ({}).toString && say(7) } class D { m = say(this.constructor.name) }
    class E { p = say(8); constructor({ q } = {}, r = say(9)) { this.q = q + r; } } class F extends D { o = say(10) }
    say(new A(), new B(2), new C(3), new D(), new E({ q: 1 }), new F(), new A().e(), new A().f.name);
    say([A, B, C, D, E, F].map((one) => [one.length, one.name]), Object.getOwnPropertyNames(D.prototype));
    class G { z = (() => { throw new RangeError(say("z")); })(); y = say("never") }
    try { new G(); } catch (e) { say(e.message); } try { D(); } catch (e) { say(e.message); }
    say(Reflect.construct(D, [], F) instanceof F);
    const o = { n: 1n, get k() { return say(this.n); }, set k(v) { this.n = say(v); }, t: "a" };
    say(o.k += 2n, o.k **= 2n, o.t += say(1), o.k -= say(1n), (o.t += 1).length, o.n <<= 2n);`,
  "parameters with defaults and patterns": `
    const f = (a, /* , */ b = say(a), c = () => a + b, ...[]) => [a, b, c()];
    const g = (a, { b, c: d = say(b) }, e) => [a, b, d, e];
    const h = ({ a } = say({ a: 4 }), /* ) */
      b, // , )
      ...rest /* , */) => ({ a, b, rest }), k = async ({ then = say(1) }) => { say(then); };
    say(f(1), f(1, 2), g(1, { b: 2 }), h(), h({ a: 1 }, 2, 3), k({}), k({ then: 2 }));
    function m(a = say(arguments.length), b = (() => this)(), c = (x = a) => x) { var v = 1; say(v, b); return c(); }
    say(m(), m.call(5, undefined), [f, g, h, k, m].map((one) => [one.length, one.name]));
    class P { #n = 2; constructor({ n = say(3) } = {}, k = new.target.name) { this.n = n; say(k); }
      m(k = this.#n, l = super.toString === ({}).toString,) { return [k, l]; }
      static s(k = say(this.name)) { return k; } set v({ a, ...b }) { say(a, b); }
      async *[say("y")](a = say(6)) { yield a; } }
    class Q extends P { constructor(k = say(7), ...l) { super(...l); this.k = k; } }
    say(new P().m(), new P({ n: 1 }, 2).m(5), P.s(), new Q(), new Q(1, { n: 2 }));
    new P().v = { a: 1, b: 2 };
    const x = 1; const q = (a = () => x) => { { const x = 2; say(x); } function r() { return a(); } return r(); };
    say(q(), ((a = b, b) => a)(1), ((a = () => b, b = 4) => a())(), ((a = (b = say(8)) => b) => a())());
    const u = (a = () => v) => { var v = 1; return a; }, t = (a = say(1)) => { var a = a + 1; return a; }, v = 9;
    say(u()(), t());
    for (const bad of [null, undefined, 5, "s"]) {
      for (const one of [({ a }) => a, ({ a: { b } }) => b, ({}) => 1, ({ ...r }) => r, ({ [say("k")]: a }) => a,
        ({ a = 2 }) => a, ({ a } = {}) => a, ({ "x y": a }, b = say(2)) => a, function ({ a: z }) { return z; }]) {
        try { say(one(bad)); } catch (e) { say(e.message); }
      }
    }
    try { ((a = b, b = 1) => a)(); } catch (e) { say(e.message); }
    try { ((a = say(1), b = a.b.c) => b)(); } catch (e) { say(e.message); }`,
  "names of functions that are assigned": `
    let x = () => 0, y; y = function () {}; var z = async () => 1; const g = function* () {}, c = class {};
    let q; q ??= () => 0; let r; r ||= (() => 1); const o = {}; o.m = () => 0; x = (0, () => 0);
    say(x.name, y.name, z.name, g.name, c.name, q.name, r.name, o.m.name, [() => 0][0].name);`,
  "names in parentheses, which give none": `
    let x, y, z; (x) = function () {}; (y) ??= () => 0; [(z) = class {}] = [];
    say([x.name, y.name, z.name].join("|"));`,
  "an object that gets the fields of classes twice": `
    let one; class Base { constructor() { return one ??= this; } }
    const k = "kk", f = () => 1;
    class A extends Base { n = f() }
    class B extends Base { n
      [k] = f()
      g = function () {}
      h = () => {} }
    class C extends Base { [k]
      /* ] */ }
    class D extends Base { a = (f(), 2); static s = f() }
    class P extends Base { #a = f(); }
    class M extends Base { #m() {} }
    class N { kind = class {} } class O extends N { kind = class {}; static y = this.name; }
    say(new O().kind.name, O.y);
    for (const cls of [A, A, B, B, C, C, D, P, P, M, M]) try { new cls(); } catch (error) { say(error.message); }
    say(one.g.name, one.h.name, one.a, Object.keys(one).join());`,
  "names of functions in objects": `
    const k = "kk", s = Symbol("sy"), f = () => 1;
    const o = { a: () => 0, b: function () {}, "c d": () => 1, [k]: () => 2, [s]: () => 3, 7: () => 4, h: class {},
      __proto__: () => 6, [k + 1]: class {}, [f()]: () => 7, i: f(), [Symbol()]: () => 8 };
    for (const key of Reflect.ownKeys(o)) say(key, o[key].name);
    say(Object.getPrototypeOf(o).name);`,
  "members with the name of the prototype's property": `
    const __proto__ = { z: 1 }, f = () => 2, o = { __proto__, a: f() }, p = { __proto__: { z: 1 }, a: f() };
    say(o.z, Object.keys(o), p.z, Object.keys(p));`,
  "a call of what an optional chain in parentheses has": `
    const f = () => 1, o = { n: 3, m(x) { return [this?.n, x]; } };
    say((o?.m)(f()), (o.m)(f()), o?.m(f()), o.m?.(f()));`,
};

/** Modules without semicolons. */
const MODULES = {
  "imports and exports": `import assert from "node:assert"
import * as util from 'node:util'
import { isDeepStrictEqual as same, inspect } from "node:util"
export { same as equal }
export * from "node:path"
export * as path from "node:path"
export const a = 1, b = [2]
b[1] = same(a, 1)
export let c = a
inspect(b)
export { c as d }
export default function (say) {
  assert(same(b, [2, true]))
  let x = util
  inspect(x.inspect(b))
  say(inspect(b), c)
}`,
  "an expression as the default": `let f = (say) => say(1)
export default (f)
f = null`,
  "a function without a name as the default": `export default (say) => { say(1) }
let x = 1`,
  "all on one line": "let n = 0; const o = {}; export default (say) => { o.n = say(n); { o.m = say(2) } return o.n }",
};

/** @param {string} body */
const functionOf = (body) => `export default function (say) {${body}\n}\n`;

/** Modules, each with those that it imports. */
const LINKED = {
  "live bindings, and the object of all that a module exports": [`import { n, inc, o as obj } from "./b.mjs";
import def, * as ns from "./b.mjs";
export default function (say) {
  say(n, ns.n); inc(); say(n, ns.n, def.name, Object.keys(ns), { n, obj }, "q" in ns, Object.getPrototypeOf(ns));
  for (const change of [() => { ns.n = 5; }, () => { delete ns.n; }, () => { ns.q = 1; }]) {
    try { change(); } catch (e) { say(e.message); }
  }
  say(Object.isExtensible(ns), ns[Symbol.toStringTag]);
}`, `export let n = 0; export const inc = () => { n += 1; }; const o = { n: 3 }; export { o };
export default () => 1;`],
  "functions and names of modules that import each other": [`import { b, early, got } from "./b.mjs";
export function a(x) { return x === 0 ? "a" : b(x - 1); }
export const late = "late";
export default (say) => { say(a(3), b(2), early, got); };`, `import { a, late } from "./a.mjs";
export const b = (x) => (x === 0 ? "b" + late : a(x - 1));
export const early = a(0);
export let got;
try { got = late; } catch (e) { got = e.message; }`],
  "defaults without names, which are there before their modules run": [`import { got } from "./b.mjs";
import self from "./a.mjs";
export default function (say) { say(got, self.name, self.length, self === got[1]); }`, `import a from "./a.mjs";
import c from "./c.mjs";
export const got = [a.name, a, c.name, [...c()], typeof c];`, `import "./b.mjs";
export default function*() { yield 1; yield 2; }`],
  "defaults, and names that are texts": [`import f, { set, "a b" as ab, q } from "./b.mjs";
export default (say) => { say(f.name, ab, q); set(); say(typeof f, ab); };`, `let v = 1;
export { v as "a b" };
export default class { m() { return v; } }
export const set = () => { v = 2; };
export * from "./c.mjs";`, "export const q = 3; export default 4;"],
};

const TEXTS = {
  ...Object.fromEntries(Object.entries({ ...WITHOUT_SEMICOLONS, ...BODIES }).map(([name, body]) =>
    [name, functionOf(body)])),
  ...MODULES, ...LINKED,
};
const SAID = saidByBoth(temporaryFolder(), Object.values(TEXTS));

for (const [at, name] of Object.keys(TEXTS).entries()) {
  test(`the same program: ${name}`, async () => {
    const { problem, rewritten, written } = (await SAID)[at];
    assert.equal(problem, undefined);
    assert.deepEqual(rewritten, written);
    assert.ok(written.length > 1, "it says something");
  });
}
