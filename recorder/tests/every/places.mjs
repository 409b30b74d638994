// Places in which a function, or a class, can capture a name: in each module two moments differ only in what that is.

import { moduleOf } from "./nasty.mjs";

/**
 * How something is made that captures `v`, and how `v` is found by it, `t`, later.
 * @type {Record<string, [string, string]>}
 */
const SHOWN_PLACES = {
  "arrow": ["return () => v;", "t()"],
  "method": ["return { m() { return v; } };", "t.m()"],
  "getter": ["return { get m() { return v; } };", "t.m"],
  "computed method": ["return { [`m`]() { return v; } };", "t.m()"],
  "name of a computed method": ["return { [`m${v}`]() {} };", "Number(Object.keys(t)[0].slice(1))"],
  "method of a class": ["return new (class { m() { return v; } })();", "t.m()"],
  "computed method of a class": [
    "return new (class { [`m`]() { return v; } static [`m`]() { return 0; } })();", "t.m()",
  ],
  "two methods of one name": ["return new (class { m() { return 0; } m() { return v; } })();", "t.m()"],
  "private method": ["class C { #m() { return v; } m() { return this.#m(); } } return new C();", "t.m()"],
  "private getter": ["class C { get #m() { return v; } m() { return this.#m; } } return new C();", "t.m()"],
  "private setter": ["class C { set #m(o) { o.n = v; } m(o) { this.#m = o; return o.n; } } return new C();", "t.m({})"],
  "static private method": ["class C { static #m() { return v; } static m() { return C.#m(); } } return C;", "t.m()"],
  "private method of another": [
    "class C { #m() { return v; } static m(o) { return o.#m(); } } const { m } = C; delete C.m; return [m, new C()];",
    "t[0](t[1])",
  ],
  "field": ["class C { x = v; } return C;", "new t().x"],
  "private field": ["class C { #x = v; m() { return this.#x; } } return C;", "new t().m()"],
  "static field": ["class C { static x = () => v; } return C;", "t.x()"],
  "static private field": ["class C { static #x = v; static m() { return this.#x; } } return C;", "t.m()"],
  "arrow in a field": ["class C { x = () => v; } return new C();", "t.x()"],
  "arrow in a field to come": ["class C { x = () => v; } return C;", "new t().x()"],
  "arrow with this in a field": ["class C { n = v; x = () => this.n; } return new C().x;", "t()"],
  "method in a field": ["class C { x = { m() { return v; } }; } return new C().x;", "t.m()"],
  "class in a field": ["class C { x = class { static m() { return v; } }; } return new C().x;", "t.m()"],
  "static block": ["class C { static { const a = v; this.m = () => a; } } return C;", "t.m()"],
  "var of a static block": ["class C { static { var a = v; C.m = function () { return a; }; } } return C;", "t.m()"],
  "computed name of a field": ["class C { [`f${v}`] = 1; } return C;", "Number(Object.keys(new t())[0].slice(1))"],
  "constructor": ["return class { constructor() { this.x = v; } };", "new t().x"],
  "derived constructor": [
    "class B { constructor(n) { this.x = n; } } return class extends B { constructor() { super(v); } };", "new t().x",
  ],
  "class without a constructor": ["class B { constructor() { this.x = v; } } return class extends B {};", "new t().x"],
  "named class": ["return class D { static n() { return v; } static m() { return D.n(); } };", "t.m()"],
  "arrow with a class's name": ["return new (class D { static n = v; x = () => D.n; })().x;", "t()"],
  "class that is replaced": [
    "class C { static x = v; static m() { return C.x; } } const K = C; C = 0; return K;", "t.m()",
  ],
  "default of a parameter": ["const f = (a = () => v) => a; return f;", "t()()"],
  "default of a parameter that was used": ["const f = (a = () => v) => a; return f();", "t()"],
  "parameter in a default": ["const f = (a, b = () => a) => b; return f(v);", "t()"],
  "later parameter in a default": ["const f = (a = () => b, b = v) => a; return f();", "t()"],
  "class in a default": ["const f = (a, b = class { #m() { return a; } m() { return this.#m(); } }) => b; return f(v);",
    "new t().m()"],
  "name outside beside a var": [
    "let x = v; const f = (a = () => x) => { var x = 5; return a; }; return f();", "t()",
  ],
  "arrow in a generator": ["function* g() { const a = v; yield () => a; } const [f] = g(); return f;", "t()"],
  "parameter of a generator": ["function* g(a) { yield () => a; } return [...g(v)][0];", "t()"],
  "block in a generator": [
    "function* g() { for (const a of [v]) yield { m() { return a; } }; } return [...g()][0];", "t.m()",
  ],
  "arrow in an async function": ["let f; (async () => { const a = v; f = () => a; })(); return f;", "t()"],
  "async arrow without braces": ["let f; const g = async (a) => (f = () => a); g(v); return f;", "t()"],
  "head of a for": ["for (let a = v, f = () => a; ; a += 1) return f;", "t()"],
  "first round of a for": [
    "const fs = []; for (let a = v, f = () => a; fs.length < 2; a += 1) fs.push(f, () => a); return fs;",
    "t[0]() * 100 + t[1]()",
  ],
  "test of a for": ["const fs = []; for (let a = v; fs.push(() => a) < 2; a += 1); return fs[1];", "t()"],
  "update of a for": ["const fs = []; for (let a = v; fs.length < 2; fs.push(() => a), a += 1); return fs[1];", "t()"],
  "constant of a for": ["for (const a = v; ;) return () => a;", "t()"],
  "case": ["switch (0) { case 0: let a = v; default: return () => a; }", "t()"],
  "function of a case": ["switch (1) { default: const a = v; function f() { return a; } return f; }", "t()"],
  "class of a case": ["switch (1) { default: class C { m() { return v; } } return C; }", "new t().m()"],
  "pattern": ["const { f = () => v } = {}; return f;", "t()"],
  "assigned pattern": ["let f; ({ f = () => v } = {}); return f;", "t()"],
  "pattern of a catch": ["try { throw {}; } catch ({ a = v, f = () => a }) { return f; }", "t()"],
  "pattern of a loop": ["for (const { a = v, f = () => a } of [{}]) return f;", "t()"],
  "optional chain": ["return [v]?.map((a) => () => a)[0];", "t()"],
  "optional call": ["const f = (g) => g; return f?.(() => v);", "t()"],
  "template with a tag": ["const tag = (_, f) => f; return tag`${() => v}`;", "t()"],
  "spread argument": ["const f = (...fs) => fs[0]; return f(...[() => v]);", "t()"],
  "own name": ["return function f(n) { return n ? v : f(1); };", "t(0)"],
  "own name that is a variable": ["return function f() { var f = v; return f; };", "t()"],
  "own name that is a parameter": ["return ((a) => function f(f) { return f + a; })(v);", "t(0)"],
  "this": ["function f() { return () => this; } return f.call(v);", "t()"],
  "new.target": ["function A() {} function F() { return () => (new.target === A ? 1 : 2); }\n"
    + "return Reflect.construct(F, [], v === 1 ? A : F);", "t()"],
  "super": ["const base = { m() { return v; } }; return { __proto__: base, m() { return super.m(); } };", "t.m()"],
  "arrow with super": [
    "class B { m() { return v; } } return new (class extends B { x = () => super.m(); })();", "t.x()",
  ],
  "method with super, of many": [
    "const all = [1, 2].map((n) => { class B { m() { return n * v; } }\n"
    + "return class extends B { m() { return super.m(); } }; }); return new all[v % 2]();", "t.m()",
  ],
  "constructor of a class of many": [
    "const all = []; for (const n of [1, 2]) { class B { constructor() { this.n = n; ld(1); } }\n"
    + "all.push(class extends B { constructor() { super(); ld(1); } }); } return all[v % 2];", "new t().n",
  ],
  "label": ["one: { const a = v; if (a > 5) break one; return () => a; }", "t()"],
};

/** The same of places that may leave a moment unmerged. @type {Record<string, [string, string]>} */
const HIDDEN_PLACES = {
  "arrow that calls super": ["class B { constructor() { this.n = v; } }\n"
    + "let f; class C extends B { constructor() { f = () => super(); return {}; } } new C(); return f;", "t().n"],
  "generator method": ["return new (class { * m() { yield v; } })();", "[...t.m()][0]"],
  "arguments": ["function f() { return () => arguments[0]; } return f(v);", "t()"],
  "parameter that is changed": ["const f = (a, b = () => a) => { a += 1; return b; }; return f(v);", "t()"],
  "computed name of a field in a default": ["const f = (C = class { [`f${v}`] = 1; }) => C; return f();",
    "Number(Object.keys(new t())[0].slice(1))"],
};

/** What modules keep, each with functions `put` and `get`. @type {Record<string, string>} */
const KEPT_BY_MODULES = {
  "block": "let put; let get; { let n = 0; put = (v) => { n = v; }; get = () => n; }",
  "function of a block": "let put; let get; { let n = 0; put = set; get = () => n; function set(v) { n = v; } }",
  "loop": "let put; let get; for (const o of [{ n: 0 }]) { put = (v) => { o.n = v; }; get = () => o.n; }",
  "head of a loop": "let put; let get;\n"
    + "for (let n = 0, f = (v) => { n = v; }, g = () => n; put === undefined; put = f) get = g;",
  "case": "let put; let get; switch (1) { default: let n = 0; put = (v) => { n = v; }; get = () => n; }",
  "catch": "let put; let get; try { throw { n: 0 }; } catch (o) { put = (v) => { o.n = v; }; get = () => o.n; }",
  "static block": "let put; let get; class K { static { let n = 0; put = (v) => { n = v; }; get = () => n; } }",
  "static private method": `class K { static #n = 0; static #set(v) { K.#n = v; } static put(v) { K.#set(v); }
  static get() { return K.#n; } } const { put, get } = K;`,
  "named class": "const put = (v) => { K.put(v); }; const get = () => K.n; const K = class Own {\n"
    + "  static n = 0; static put(v) { Own.n = v; } };",
  "generator": "function* g() { let n = 0; yield [(v) => { n = v; }, () => n]; } const [[put, get]] = [...g()];",
  "default": "const make = (o = { n: 0 }, f = (v) => { o.n = v; }, g = () => o.n) => [f, g];\n"
    + "const [put, get] = make();",
  "object of a super": "const { put, get } = { __proto__: { o: { n: 0 } }, put(v) { super.o.n = v; },\n"
    + "  get() { return super.o.n; } };",
  "class of an arrow that calls super": `class B { constructor(n) { B.n = n * new.target.one; } }
  const fs = []; class C extends B { static one = 1; constructor() { fs.push((n) => super(n)); return {}; } }
  class D extends C { static one = 2; }
  let f; const put = (n) => { new (n === 1 ? C : D)(); f = fs.pop(); }; const get = () => { f(1); return B.n; };`,
  "computed name of a field": "let C; const put = (n) => { C = class { [`f${n}`] = 1; }; };\n"
    + "const get = () => (C === undefined ? 0 : Number(Object.keys(new C())[0][1]));",
  "class of a super": "class B { static o = { n: 0 }; } const { put, get } = class extends B {\n"
    + "  static put(v) { super.o.n = v; } static get = () => super.o.n; };",
};

/** @typedef {{ name: string, text: string, isShown: boolean }} PlaceModule `isShown`: its moments are to be merged */

/** @param {Record<string, [string, string]>} places @param {boolean} isShown @returns {PlaceModule[]} */
const modulesOf = (places, isShown) => Object.entries(places).map(([name, [made, use]]) => ({
  name, isShown, text: moduleOf(`const make = (v) => { ${made} }; const t = make(ld(0)); ld(1); out(${use});`),
}));

/** @type {readonly PlaceModule[]} */
export const PLACES = Object.freeze([
  ...modulesOf(SHOWN_PLACES, true),
  ...modulesOf(HIDDEN_PLACES, false),
  ...Object.entries(KEPT_BY_MODULES).map(([name, kept]) => (
    { name: `${name} of a module`, isShown: true, text: `${kept}\n${moduleOf("put(ld(0)); ld(1); out(get());")}` })),
]);
