// Modules of whole programs: each program runs by node itself, and three times by fresh graphs in one thread. It has to
// print the same each time.

import assert from "node:assert/strict";
import { readFileSync, realpathSync, writeFileSync } from "node:fs";
import { join } from "node:path";
import { test } from "node:test";
import { fileURLToPath, pathToFileURL } from "node:url";
import { Worker } from "node:worker_threads";
import { GRAPH_FLAGS } from "../../lib/program/node/graph-flags.cjs";
import { fileIn, jsonOf, nodeThere, temporaryFolder } from "../helpers/common.mjs";
import { programIn } from "../helpers/whole-programs.mjs";

const FLAGS = ["--no-warnings", ...GRAPH_FLAGS];
const PROCESS = fileURLToPath(new URL("../helpers/graph-process.mjs", import.meta.url));

/** What each of some runs in one thread prints, for each of some programs. */
async function ownRuns(urls, runs = 3, flags = []) {
  return jsonOf(await nodeThere([...FLAGS, ...flags, PROCESS, JSON.stringify(urls), String(runs)]));
}

/** What node itself prints. */
async function realRun(file) {
  const { stdout, stderr } = await nodeThere(["--no-warnings", file]);
  assert.equal(stderr, "");
  return stdout.slice(0, -1).split("\n");
}

/** Code that imports something and prints what comes of it, an error with its code and the head of its stack. */
const TRY = `
  globalThis.attempt = async (act) => {
    try {
      console.log(await act());
    } catch (error) {
      console.log(error.name, error.code, error.message, Object.keys(error).join());
console.log(error.stack.split("\\n    at ")[0]);
    }
  };
`;

const PROGRAMS = {
  "ES modules: names, cycles, live bindings, order": {
    "main.mjs": `
      import "./first.mjs"; import { count, add } from "./state.mjs"; import * as all from "./state.mjs";
      import chosen, { other as renamed } from "./chosen.js"; export { count };
      console.log(count, Object.keys(all).join()); add(); add(); console.log(count, all.count, chosen, renamed);
      console.log(all, typeof this);`,
    "first.mjs": `import { late } from "./second.mjs"; console.log("first"); export const early = () => late();`,
    "second.mjs": `import { early } from "./first.mjs"; console.log("second"); export const late = () => typeof early;`,
    "state.mjs": `export let count = 0; export const add = () => { count += 1; }; export { count as default };`,
    "chosen.js": `export default 7; export const other = 8; export * from "./state.mjs";`,
    "package.json": `{ "type": "module" }`,
  },
  "top-level await, and modules that wait side by side": {
    "main.mjs": `import { a } from "./a.mjs"; import "./b.mjs"; console.log("main", a); await null;
    console.log("end");`,
    "a.mjs": `console.log("a begins"); export const a = await Promise.resolve(1); console.log("a ends");`,
    "b.mjs": `console.log("b begins"); await null; await null; console.log("b ends");`,
  },
  "dynamic import, also from code made of text": {
    "main.mjs": `
      const first = await import("./part.mjs"); const again = await import("./part.mjs");
      console.log(first === again, first);
      console.log((await new Function("return import('./part.mjs')")()) === first);
      console.log((await eval("import('./part.mjs')")) === first);
      console.log((await (0, eval)("import('./part.mjs')")) === first);
      const [one, two] = await Promise.all([import("./one.mjs"), import("./two.mjs")]);
      console.log(one.default, two.default);
      console.log((await import("./part.mjs?other")) === first,
        (await import(new URL("./part.mjs", import.meta.url))) === first);
      import("./cycle.mjs").then((m) => console.log("cycle", m.self));`,
    "part.mjs": `console.log("part runs"); export const part = 1;`,
    "one.mjs": `import "./shared.mjs"; export default await new Promise((done) => process.nextTick(done, "one"));`,
    "two.mjs": `import { shared } from "./shared.mjs"; export default shared;`,
    "shared.mjs": `console.log("shared runs"); await null; export const shared = "shared";`,
    "cycle.mjs": `export let self = "not yet"; import("./cycle.mjs").then((m) => { self = m.self + "!"; });`,
  },
  "dynamic imports at once of what hangs together": {
    "main.mjs": `
      const names = ["./one.mjs", "./two.mjs", "./d1.mjs", "./d3.mjs", "./shared.mjs"];
      const all = await Promise.all(names.map((name) => import(name)));
      console.log(all.map((each) => each.n).join());`,
    "one.mjs": `export { n } from "./shared.mjs";`, "two.mjs": `import "./d2.mjs"; export { n } from "./shared.mjs";`,
    "shared.mjs": `export { n } from "./d1.mjs";`, "d1.mjs": `export { n } from "./d2.mjs";`,
    "d2.mjs": `export { n } from "./d3.mjs";`, "d3.mjs": `export { n } from "./d4.mjs"; console.log("d3");`,
    "d4.mjs": `import "./one.mjs"; console.log("d4"); export const n = 4;`,
  },
  "import.meta": {
    "main.mjs": `
      console.log(Object.keys(import.meta).join(), import.meta.url.endsWith("main.mjs"),
        Object.getPrototypeOf(import.meta));
      console.log(import.meta.dirname, import.meta.filename, import.meta.resolve("./missing.mjs"));
      console.log(import.meta.resolve("node:fs"), import.meta.resolve("fs"), import.meta.resolve("pack"));
      ${TRY}
      await attempt(() => import.meta.resolve("nowhere"));
      await import("./dir/in.mjs");`,
    "dir/in.mjs": `console.log(import.meta.url, import.meta.resolve("../x"));`,
    "node_modules/pack/package.json": `{ "exports": { "import": "./i.mjs", "require": "./r.cjs" } }`,
    "node_modules/pack/i.mjs": "", "node_modules/pack/r.cjs": "",
  },
  "CommonJS: require.main, cache, circles, this, globals of a module": {
    "main.cjs": `
      console.log(require.main === module, module.id, module.parent, module.loaded, this === exports, arguments.length);
      console.log(__filename, __dirname, module.children.length, module.paths[0], Object.keys(require).join());
      const a = require("./a"); console.log(a, Object.keys(require.cache).map((each) => each.split("/").pop()).join());
      console.log(require.resolve("./a"), require.resolve.paths("x")[0],
        require.extensions === require("module")._extensions);
      delete require.cache[require.resolve("./count.js")]; console.log(require("./count.js"), require("./count.js"));
      console.log(require("./data.json"), require("./dir"), process.mainModule === module, module.children.length);
      exports.x = 1; console.log(typeof require, require("./a") === a, module.require("./a") === a);
      try { require("./missing"); } catch (e) { console.log(e.code, e.message, e.requireStack); }
      try { require("./bad.json"); } catch (e) { console.log(e.name, e.message); }
      try { require("./throws.js"); } catch (e) { console.log(e.message, e.stack.split("\\n")[1]); }
      try { require("./throws.js"); } catch (e) { console.log(e.message); }
      try { require("./syntax.js"); } catch (e) { console.log(e.stack.split("\\n").slice(0, 5).join("|")); }`,
    "a.js": `exports.early = true; const b = require("./b"); console.log("a", b); exports.done = b.done;
    exports.parent = module.parent.id;`,
    "b.js": `const a = require("./a"); console.log("b", a.early, a.done); exports.done = 1;`,
    "count.js": `global.counted = (global.counted || 0) + 1; console.log("count runs"); module.exports = 5;
    delete global.counted;`,
    "data.json": `{ "value": 3 }`, "bad.json": `{`, "dir/index.js": `module.exports = "dir";`,
    "throws.js": `\n  throw new Error("thrown");`, "syntax.js": `const a = ;`,
  },
  "import() in CommonJS": {
    "main.cjs": `
      import("./state.mjs").then(async (first) => {
        first.add();
        console.log(first.count, (await require("./other.cjs").load()).count, require("./other.cjs").value);
        console.log((await import("./other.cjs")).default === require("./other.cjs"));
        console.log(await import("fs") === await import("node:fs"));
      });
      console.log("first");`,
    "other.cjs": `exports.load = () => import("./state.mjs"); exports.value = 4;`,
    "state.mjs": `export let count = 0; export const add = () => { count += 1; }; console.log("state runs");`,
  },
  "CommonJS imported by ES modules: names, order, default": {
    "main.mjs": `
      import "./before.mjs"; import whole, { a, b } from "./c.cjs"; import * as all from "./c.cjs";
      import "./after.mjs";
      import * as again from "./reexports.cjs"; import * as compiled from "./compiled.cjs";
      import fn, { extra } from "./fn.cjs";
      import * as none from "./none.cjs"; import nothing from "./nothing.cjs"; import { inner } from "pack";
      console.log(whole, a, b, all, again, compiled, fn(), extra, none, nothing, inner);
      console.log(whole === all.default);`,
    "before.mjs": `console.log("before");`, "after.mjs": `console.log("after");`,
    "c.cjs": `console.log("c runs"); exports.a = 1; exports.b = { c: 2 };
    Object.defineProperty(exports, "hidden", { get: () => 3 });`,
    "reexports.cjs": `module.exports = { ...require("./c.cjs"), own: 1 }; module.exports.late = 2;`,
    "compiled.cjs": `Object.defineProperty(exports, "__esModule", { value: true }); exports.default = 5;
    exports.named = 6;`,
    "fn.cjs": `module.exports = () => "called"; module.exports.extra = 1;`,
    "none.cjs": `const make = () => ({ computed: 1 });
    module.exports = make();`, "nothing.cjs": `module.exports = null;`,
    "node_modules/pack/package.json": `{ "main": "./lib" }`,
    "node_modules/pack/lib/index.js": `__exportStar(require("./inner"), exports);
    function __exportStar(from, to) { Object.assign(to, from); }`,
    "node_modules/pack/lib/inner.js": `exports.inner = "inner";`,
  },
  "JSON": {
    "main.mjs": `
      import data from "./data.json" with { type: "json" };
      ${TRY}
      console.log(data);
      await attempt(async () => (await import("./asserts.mjs")).default === data);
      await attempt(async () => (await import("./data.json", { with: { type: "json" } })).default === data);
      await attempt(() => import("data:application/json,[1,2]", { with: { type: "json" } }));
      await attempt(() => import("./data.json"));
      await attempt(() => import("./bad.json", { with: { type: "json" } }));
      await attempt(() => import("./code.mjs", { with: { type: "json" } }));
      await attempt(() => import("./data.json", { with: { type: "css" } }));
      await attempt(() => import("fs", { with: { type: "json" } }));`,
    "data.json": `{ "value": [1] }`, "bad.json": `{`, "code.mjs": `console.log("never");`,
    // Node 24 doesn't take this.
    "asserts.mjs": `import data from "./data.json" assert { type: "json" }; export default data;`,
  },
  "packages: exports, imports, conditions, themselves": {
    "main.mjs": `
      import one from "pack"; import sub from "pack/sub"; import star from "pack/files/x.js"; import own from "#own";
      import self from "self/thing"; import { createRequire } from "node:module"; import scoped from "@a/b";
      console.log(one, sub, star, own, self, scoped, createRequire(import.meta.url)("pack"));
      ${TRY}
      await attempt(() => import("pack/private.js"));
      await attempt(() => import("pack/package.json"));
      await attempt(() => import("#missing"));
      await attempt(() => import("none"));`,
    "package.json": `{ "name": "self", "exports": { "./thing": "./thing.mjs" },
      "imports": { "#own": { "node": "./own.mjs", "default": "./other.mjs" } } }`,
    "thing.mjs": `export default "self";`, "own.mjs": `export default "own";`, "other.mjs": `export default "other";`,
    "node_modules/pack/package.json": `{ "exports": {
      ".": { "import": "./i.mjs", "require": "./r.js" }, "./sub": { "node": { "import": "./n.mjs" } },
      "./files/*": "./f/*" } }`,
    "node_modules/pack/i.mjs": `export default "import";`, "node_modules/pack/r.js": `module.exports = "require";`,
    "node_modules/pack/n.mjs": `export default "node";`, "node_modules/pack/f/x.js": `module.exports = "star";`,
    "node_modules/pack/private.js": "", "node_modules/@a/b/package.json": `{ "main": "m.js" }`,
    "node_modules/@a/b/m.js": `module.exports = "scoped";`,
  },
  "errors of loading": {
    "main.mjs": `
      ${TRY}
      for (const name of ["./missing.mjs", "./imports-missing.mjs", "none", "./dir", "./syntax.mjs", "./no-export.mjs",
        "./no-export.cjs.mjs", "./throws.mjs", "./throws.cjs", "./unknown.foo", "node:nothing", "http://a/b",
          "./a%2fb.mjs",
        "data:text/plain,x", "./uses-require.mjs", "./renamed.mjs"]) {
        await attempt(() => import(name));
        await attempt(() => import(name));
      }`,
    "imports-missing.mjs": `import "./fine.mjs"; import "./gone.mjs";
    console.log("never");`, "fine.mjs": `console.log("never");`,
    "dir/index.mjs": "", "syntax.mjs": `export const a = 1;\nexport const b = ;`,
    "no-export.mjs": `import { gone } from "./some.mjs";`, "some.mjs": `export const here = 1;`,
    "no-export.cjs.mjs": `import { gone } from "./some.cjs";`, "some.cjs": `exports.here = 1;`,
    "renamed.mjs": `import { gone as a, here as b } from './some.cjs';`,
    "throws.mjs": `console.log("runs once");\n\n  throw new TypeError("of a module");`,
    "throws.cjs": `console.log("runs");\n  throw new RangeError("of CommonJS");`, "unknown.foo": "",
    "uses-require.mjs": `\nrequire("fs");`,
  },
  "data: URLs": {
    "main.mjs": `
      import text from "data:text/javascript,export default 1"; ${TRY}
      import coded from "data:text/javascript;base64,ZXhwb3J0IGRlZmF1bHQgImLDpCI=";
      console.log(text, coded);
      const exported = "export const n = 'a%20b'; export default import.meta.url.length";
      await attempt(() => import("data:text/javascript," + exported));
      const own = "data:text/javascript,export default import.meta";
      await attempt(async () => Object.keys((await import(own)).default).join());
      await attempt(() => import("data:text/javascript,import fs from 'fs'; export const t = typeof fs.readFile"));
      await attempt(() => import("data:text/javascript,import './x.mjs'"));`,
  },
  "builtins: names, defaults, live bindings": {
    "main.mjs": `
      import fs, { readFileSync, promises } from "node:fs"; import * as all from "fs";
      import { syncBuiltinESMExports } from "module";
      import * as paths from "path/posix"; import * as test from "node:test"; import { mine } from "./mine.mjs";
      const before = fs.readFileSync;
      console.log(fs.readFileSync === readFileSync, all.default === fs, Object.keys(all).length > 90,
        promises === fs.promises);
      fs.readFileSync = () => "patched"; console.log(readFileSync === before, mine());
      syncBuiltinESMExports(); console.log(readFileSync(), all.readFileSync(), mine());
      fs.readFileSync = before; syncBuiltinESMExports(); console.log(readFileSync === before);
      console.log(Object.keys(paths).length, typeof test.describe, (await import("node:fs")) === all);`,
    "mine.mjs": `import { readFileSync } from "fs"; export const mine = () => readFileSync.length;`,
  },
  "types of files: by extension, by package, by syntax": {
    "main.mjs": `
      for (const name of ["./commonjs.js", "./syntax.js", "./noext", "./typed/a.js", "./typed/noext",
        "./typed/c.cjs", "./cjstyped/a.js",
        "./await.js", "./node_modules/deep/index.js", "./meta.js"]) console.log(name, await import(name));`,
    "commonjs.js": `exports.way = typeof require;`, "syntax.js": `export const way = typeof require;`,
    "noext": `exports.way = typeof module;`, "typed/package.json": `{ "type": "module" }`,
    "typed/a.js": `export const way = 1;`,
    "typed/noext": `export const way = 2;`, "typed/c.cjs": `exports.way = 3;`,
    "cjstyped/package.json": `{ "type": "commonjs" }`,
    "cjstyped/a.js": `exports.way = 4;`, "await.js": `const require = 1; await null; export const way = require;`,
    "meta.js": `console.log(typeof import.meta.url);`, "node_modules/deep/index.js": `export const way = 5;`,
  },
  "stacks have the names of files, and lines": {
    "main.mjs": `
      import { fail } from "./fail.mjs"; import { createRequire } from "module";
      const require = createRequire(import.meta.url);
      const isOwn = (line) => !/node:|program-modules\\.mjs/.test(line);
      const shown = (e) => e.stack.split("\\n").filter(isOwn).slice(0, 3).join("|");
      for (const act of [fail, require("./fail.cjs").fail, () => { null.x; }]) try { act();
      } catch (e) { console.log(shown(e)); }
      const later = async () => { await null; fail(); }; await later().catch((e) => console.log(shown(e)));`,
    "fail.mjs": `\n\nexport function fail() {\n  throw new Error("in a module");\n}`,
    "fail.cjs": `\n\nexports.fail = function fail() {\n    throw new Error("in CommonJS");\n};`,
  },
  "CommonJS that begins like a command, is strict, or has its error in its first line": {
    "main.cjs": `#!/usr/bin/env node
console.log(require("./strict.cjs"), new Error("x").stack.split("\\n")[1]);
for (const name of ["./first", "./closes", "./ends"]) {
  try { require(name + ".cjs"); } catch (error) { console.log(error.message, error.stack.split("\\n").slice(0, 2)); }
}`,
    "strict.cjs": `"use strict"; exports.isStrict = function () { return this === undefined; }(); // the end`,
    "first.cjs": `exports.a = 1; throw new Error(Object.keys(arguments).join() + typeof this.a);`,
    "closes.cjs": `}); console.log("never"); (function () {`,
    "ends.cjs": `exports.b = 1; <!-- a comment
--> another
notThere();`,
  },
  "a main of CommonJS without a type, which is an ES module by its syntax": {
    "main.js": `import { basename } from "path"; console.log(basename(import.meta.url), typeof require);`,
  },
  "require of ES modules": {
    "main.cjs": `
      const attempt = (act) => { try { console.log(act()); } catch (e) { console.log(e.name, e.code, e.message); } };
      for (const name of ["./a.mjs", "./a.mjs", "./typed", "./b.js", "./default.mjs", "./named.mjs", "./awaits.mjs",
        "./imports.mjs", "./throws.mjs", "./cycle.mjs", "./gone.mjs", "./syntax.mjs"]) attempt(() => require(name));
      console.log(require("./a.mjs") === require("./a.mjs"), Object.keys(require.cache).length);
      import("./a.mjs").then((all) => console.log(all, all === require("./a.mjs")));`,
    "a.mjs": `console.log("a runs"); export const a = 1; export const self = () => a;`,
    "b.js": `export const b = 1; console.log("b runs");`, "typed/package.json": `{ "type": "module" }`,
    "typed/index.js": `console.log("typed runs"); export default typeof require;`,
    "default.mjs": `export default class Named {} export const other = 2;`,
    "named.mjs": `export const __esModule = false; export default 1; export { it as "module.exports" };
      const it = "whole";`,
    "awaits.mjs": `console.log("never"); export const x = await 1;`,
    "imports.mjs": `import c from "./c.cjs"; import { a } from "./a.mjs"; export const sum = c.c + a;`,
    "c.cjs": `exports.c = 3;`, "throws.mjs": `throw new TypeError("of an ES module");`,
    "cycle.mjs": `import "./cycle.cjs"; export const cycle = 1;`, "cycle.cjs": `require("./cycle.mjs");`,
    "gone.mjs": `import "./nowhere.mjs";`, "syntax.mjs": `export const b = ;`,
  },
  "ES modules that import CommonJS which requires CommonJS that they import too": {
    "main.mjs": `import a from "./a.cjs"; import b from "./b.cjs"; import * as all from "./all.cjs";
      console.log(a, b, all, a.b === b);`,
    "a.cjs": `exports.b = require("./b.cjs"); exports.early = typeof require("./c.cjs");`,
    "b.cjs": `exports.of = "b"; exports.c = require("./c.cjs");`,
    "c.cjs": `exports.c = Object.keys(require("./a.cjs"));`,
    "all.cjs": `module.exports = { ...require("./d/d.cjs"), all: 1 };`, "d/d.cjs": `exports.d = require("./e.cjs").e;`,
    "d/e.cjs": `exports.e = 5;`,
  },
  "state of modules is fresh": {
    "main.mjs": `
      import { next } from "./esm.mjs"; import cjs from "./cjs.cjs"; import { createRequire } from "module";
      import data from "./d.json" with { type: "json" };
      console.log(next(), next(), cjs.next(), createRequire(import.meta.url)("./cjs.cjs").next(), data.n); data.n = 9;`,
    "esm.mjs": `let n = 0; export const next = () => n += 1;`, "cjs.cjs": `let n = 0;
    exports.next = () => n += 1;`, "d.json": `{"n":1}`,
  },
};

const folder = temporaryFolder();

const mains = Object.entries(PROGRAMS).map(([name, files], at) =>
  ({ name, main: programIn(join(folder, String(at)), files) }));
const own = ownRuns(mains.map(({ main }) => pathToFileURL(main).href));
const real = Promise.all(mains.map(({ main }) => realRun(main)));

for (const [at, { name }] of mains.entries()) {
  test(`as in node: ${name}`, async () => {
    const expected = (await real)[at];
    assert.ok(expected.length > 0 && expected[0] !== "", "it prints something");
    for (const run of (await own)[at]) assert.deepEqual(run, expected);
  });
}

test("code of a worker with eval: true has its globals, and starts anew each time", async () => {
  writeFileSync(join(folder, "eval.mjs"), "export const e = 1;");
  const url = pathToFileURL(join(folder, "eval.mjs")).href;
  const code = `const { basename } = require("path"); let count = 0; count += 1;
    console.log(count, basename("/a/b"), typeof module, exports === module.exports, __filename, __dirname,
      this === globalThis);
    import(${JSON.stringify(url)}).then((m) => console.log(m.e));
    console.log(new Error("x").stack.split("\\n")[1]);`;
  const [runs] = await ownRuns([code]);
  const expected = ["1 b object true [worker eval] . true", "    at [worker eval]:5:17", "1"];
  for (const run of runs) assert.deepEqual(run, expected);
});

test("code of a worker with eval: true that only an ES module may have is one, as in node", async () => {
  const code = `import { basename } from "path"; import("./none.mjs").catch(({ code }) => console.log(code));
    console.log(basename(import.meta.url), typeof require, typeof module, this, await 1);
    import("node:internal/util").catch(({ code }) => console.log(code));
    export const place = new Error("x").stack.split("\\n")[1]; console.log(place);`;
  const file = join(folder, "evaluates.mjs");
  writeFileSync(file, `import { Worker } from "worker_threads"; new Worker(${JSON.stringify(code)}, { eval: true });`);
  const expected = await realRun(file);
  assert.equal(expected[0], "[eval1] undefined undefined undefined 1");
  const [runs, wrong] = await ownRuns([code, "import 'path'; let = 5;"]);
  for (const run of runs) assert.deepEqual(run, expected);
  for (const [line] of wrong) assert.match(line, /^failed: SyntaxError/);
});

test("a program's `require` and `module` aren't there for the next program", async () => {
  const code = `console.log(typeof globalThis.module); require("path"); globalThis.left = 1;`;
  writeFileSync(join(folder, "main-module.cjs"), `console.log(process.mainModule === module);`);
  writeFileSync(join(folder, "sees.mjs"), `console.log(typeof require, typeof module, typeof process.mainModule);`);
  const files = ["main-module.cjs", "sees.mjs"].map((name) => pathToFileURL(join(folder, name)).href);
  const [, first, second] = await ownRuns([code, ...files], 2);
  assert.deepEqual(first, Array(2).fill(["true"]));
  assert.deepEqual(second, Array(2).fill(["undefined undefined undefined"]));
});

test("a file that is written anew is read anew", async () => {
  programIn(join(folder, "written"), {
    "main.mjs": `
      import { writeFileSync } from "fs"; import { createRequire } from "module";
      globalThis.times = (globalThis.times ?? 0) + 1;
      const { times } = globalThis;
      for (const [name, text] of [["made.mjs", "export const n = "], ["made.cjs", "exports.n = "]]) {
        writeFileSync(new URL(name, import.meta.url), text + times);
      }
      const code = times === 2 ? "export const way = 'module';" : "exports.way = 'commonjs';";
      writeFileSync(new URL("either.js", import.meta.url), code);
      writeFileSync(new URL("names.cjs", import.meta.url), "exports.name" + times + " = 1;");
      // Node 24 adds one.
      const names = Object.keys(await import("./names.cjs")).filter((name) => name !== "module.exports");
      console.log((await import("./either.js")).way, names.join());
      console.log((await import("./made.mjs")).n === globalThis.times,
        (await import("./made.cjs")).n === globalThis.times,
        createRequire(import.meta.url)("./made.cjs").n === globalThis.times);`,
  });
  const [runs] = await ownRuns([pathToFileURL(join(folder, "written/main.mjs")).href]);
  assert.deepEqual(runs, ["commonjs", "module", "commonjs"].map((way, at) =>
    [`${way} default,name${at + 1}`, "true true true"]));
});

test("a thread makes graphs as a process does, without a warning", async () => {
  programIn(join(folder, "thread"), {
    "main.mjs": `import { threadId } from "worker_threads"; import c from "./c.cjs";
    console.log(threadId > 0, c, await import("./d.mjs"));`,
    "c.cjs": `module.exports = typeof require;`, "d.mjs": `export const d = 1;`,
  });
  const argv = [JSON.stringify([pathToFileURL(join(folder, "thread/main.mjs")).href]), "2"];
  const worker = new Worker(PROCESS, { argv, execArgv: [...GRAPH_FLAGS], stdout: true, stderr: true });
  const texts = { stdout: "", stderr: "" };
  for (const name of ["stdout", "stderr"]) worker[name].on("data", (data) => { texts[name] += data; });
  await new Promise((done) => worker.on("exit", done));
  assert.equal(texts.stderr, "");
  assert.deepEqual(JSON.parse(texts.stdout), [Array(2).fill(["true function [Module: null prototype] { d: 1 }"])]);
});

/**
 * What the engine has noted about a file: the texts that it took of it, and each time that it read or compiled a
 * function of one, with the place of that function.
 */
function engineNotesOf(log, file) {
  const lines = log.split("\n").map((line) => line.split(","));
  const texts = lines.filter(([kind, , name]) => kind === "script-details" && name === file).map(([, id]) => id);
  const compiled = lines.filter(([kind, act]) => kind === "function" && /parse|interpreter/.test(act));
  const acts = compiled.filter(([, , id]) => texts.includes(id));
  return { texts, acts: acts.map(([, act, id, from, to]) => [act, id, from, to].join(" ")) };
}

test("from the third run on, the engine compiles no CommonJS, and each run has functions of its own", async () => {
  const functions = 400;
  const body = Array.from({ length: functions }, (_, at) => `function f${at}(a) { return a.b${at} + "c${at}"; }`)
    .join("\n");
  const at = join(folder, "compiled");
  programIn(at, {
    "main.cjs": `
      const large = require("./large.cjs"); const isNew = !(globalThis.compiledOld ??= new Set()).has(large.f0);
      globalThis.compiledOld.add(large.f0);
      console.log(isNew);`,
    "large.cjs": `${body}\nexports.f0 = f0; for (let at = 0; at < 50; at += 1) f0({});`,
  });
  // The engine may drop the code of what hasn't run for long, and compile that again. Here it keeps all.
  const logged = ["--no-flush-bytecode", "--log-function-events", "--no-logfile-per-isolate",
    `--logfile=${join(at, "log")}`];
  const [runs] = await ownRuns([pathToFileURL(join(at, "main.cjs")).href], 6, logged);
  assert.deepEqual(runs, Array(6).fill(["true"]));
  // The engine writes signs beyond ASCII by their codes.
  const path = realpathSync(join(at, "large.cjs"))
    .replace(/[^ -~]/g, (sign) => `\\x${sign.charCodeAt(0).toString(16)}`);
  const { texts, acts } = engineNotesOf(readFileSync(join(at, "log"), "utf8"), path);
  assert.equal(texts.length, 2, "it is compiled as a function's text, and as a script");
  assert.ok(acts.length > texts.length * functions, `the engine has noted ${acts.length} acts`);
  assert.deepEqual(acts.filter((act, at) => acts.indexOf(act) !== at), [], "what was compiled is compiled again");
});

test("graphs that are over are garbage: memory and time of a run stay", async () => {
  programIn(join(folder, "memory"), {
    "main.mjs": `import { a } from "./a.mjs"; import c from "./c.cjs"; import fs from "fs";
    globalThis.sum = a + c.c + (await import("./d.mjs")).d;`,
    "a.mjs": `export { a } from "./b.mjs"; export const list = Array.from({ length: 1_000 }, (_, at) => at);`,
    "b.mjs": `export const a = 1;`, "c.cjs": `exports.c = 2;
    exports.later = () => import("./d.mjs");`, "d.mjs": `export const d = 3;`,
  });
  const url = pathToFileURL(join(folder, "memory/main.mjs")).href;
  const own = (name) => JSON.stringify(new URL(`../../lib/program/modules/${name}.mjs`, import.meta.url));
  const code = `
    import { ProgramModules } from ${own("program-modules")};
    const graph = new ProgramModules({ refuse: () => {} });
    const turn = () => new Promise((done) => setTimeout(done, 10));
    const heaps = []; const times = [];
    for (let part = 0; part < 4; part += 1) {
      times.push(Infinity);
      for (let run = 0; run < 150; run += 1) {
        const begun = performance.now();
        graph.begin(); await graph.enter(${JSON.stringify(url)});
        times[part] = Math.min(times[part], performance.now() - begun);
      }
      for (let time = 0; time < 3; time += 1) { gc(); await turn(); }
      heaps.push(process.memoryUsage().heapUsed);
    }
    console.log(JSON.stringify({ heaps, times }));`;
  const file = fileIn(folder, "memory/counts.mjs", code);
  const { heaps, times } = jsonOf(await nodeThere(["--expose-gc", ...FLAGS, file]));
  assert.ok(heaps[3] < heaps[0] * 1.2, `bytes after each 150 runs: ${heaps}`);
  assert.ok(times[3] < times[0] * 2, `milliseconds of the quickest of each 150 runs: ${times}`);
});

test("a deleted file isn't found, though the run before found it", async () => {
  programIn(join(folder, "gone"), {
    "main.cjs": `
      const fs = require("fs"); globalThis.goneTimes = (globalThis.goneTimes ?? 0) + 1;
      const file = require("path").join(__dirname, "x.js");
      if (globalThis.goneTimes === 1) fs.writeFileSync(file, "module.exports = 1;");
      else fs.rmSync(file, { force: true });
      try { console.log(require("./x")); } catch (error) { console.log(error.code); }
      import("./x.js").then((m) => console.log(m.default), (error) => console.log(error.code));`,
  });
  const [runs] = await ownRuns([pathToFileURL(join(folder, "gone/main.cjs")).href], 2);
  assert.deepEqual(runs, [["1", "1"], ["MODULE_NOT_FOUND", "ERR_MODULE_NOT_FOUND"]]);
});
