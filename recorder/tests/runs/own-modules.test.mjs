// The recorder's own modules as its workers get them: as node's loader would have them.

import assert from "node:assert/strict";
import { readFileSync, writeFileSync } from "node:fs";
import { join } from "node:path";
import { test } from "node:test";
import { fileURLToPath, pathToFileURL } from "node:url";
import { compileFunction } from "node:vm";
import { compiledModules, evaluated, ownModules } from "../../lib/processes/own-modules.cjs";
import { RECORD, agentsPath, fileIn, nodeNow, temporaryFolder } from "../helpers/common.mjs";

const ROOTS = ["agent/agent-worker.mjs", "run/referee.mjs"]
  .map((path) => new URL(`../../lib/${path}`, import.meta.url));
// The first one begins to work where it is evaluated.
const withoutRoot = (root) => ownModules(root).slice(0, -1);

/** A module of some text. */
const written = (context, text, name = "module.mjs") => pathToFileURL(fileIn(temporaryFolder(context), name, text));

for (const root of ROOTS) {
  const name = root.href.split("/").at(-1);

  test(`each module behind ${name} exports the same names, of values of the same types`, async () => {
    const shapes = (exported) =>
      Object.fromEntries(Object.entries(exported).sort().map(([key, value]) => [key, typeof value]));
    const own = withoutRoot(root);
    assert.ok(own.length > 40);
    // Each is evaluated once, behind those that it imports.
    const modules = {};
    for (const each of own) {
      assert.deepEqual(shapes(evaluated([each], modules)), shapes(await import(each.url)), each.url);
    }
  });

  test(`each module that ${name} imports keeps the lines of its file`, () => {
    for (const { url, code } of ownModules(root)) {
      const lines = readFileSync(fileURLToPath(url), "utf8").split("\n");
      const own = code.split("\n");
      lines.slice(1, -1).forEach((line, at) => {
        if (!/^(import|export|\} from)\b/.test(line) && !line.includes("import.meta.url")) {
          const later = (_, from) => `await loaded("${new URL(from, url)}")`;
          assert.equal(own[at + 1], line.replace(/await import\("(\.[^"]*)"\)/, later), `${url}:${at + 2}`);
        }
      });
    }
  });
}

/** The names in such a list as `a, b: c`, where `c` is what `b` is called. */
const namesOf = (list) => list.split(",").map((each) => each.split(":")[0].trim()).filter((each) => each !== "");

test("each name that a module imports from another one is exported there", () => {
  for (const path of ["agent/agent-worker.mjs", "run/referee.mjs", "program/program-worker.mjs"]) {
    const own = ownModules(new URL(`../../lib/${path}`, import.meta.url));
    const exported = new Map(own.map(({ url, code }) => [url, namesOf(/return \{ (.*) \};$/.exec(code)[1])]));
    for (const { url, code } of own) {
      for (const [, names, from] of code.matchAll(/^(?:"use strict"; )?const \{([^}]*)\} = modules\["([^"]*)"\];$/gm)) {
        for (const name of namesOf(names)) {
          assert.ok(exported.get(from).includes(name), `${url} imports ${name}, which ${from} doesn't export`);
        }
      }
    }
  }
});

test("a module is evaluated once, behind those that it imports, in strict mode, and knows its URL", (context) => {
  const folder = temporaryFolder(context);
  const files = {
    "one.mjs": "export const counted = { times: 0 };\nexport const { a, b } = { a: 1, b: 2 };\n",
    "two.mjs": 'import { counted } from "./one.mjs";\ncounted.times += 1;\nexport function f() {}\n',
  };
  for (const [name, code] of Object.entries(files)) writeFileSync(join(folder, name), code);
  const text = [
    'import fs from "node:fs";', 'import { join as joined } from "node:path";',
    "import {", "  a, b,", '} from "./one.mjs";',
    'import { counted } from "./one.mjs";', 'import { f } from "./two.mjs";',
    "export class Named {}", "export async function later() {}",
    "export const values = [typeof fs.readFileSync, typeof joined, a, b, counted.times, typeof f];",
    "export const self = (function () { return this; })();", "export const url = import.meta.url;",
  ];
  writeFileSync(join(folder, "root.mjs"), text.join("\n"));
  const url = pathToFileURL(join(folder, "root.mjs"));
  const list = ownModules(url);
  assert.deepEqual(list.map((each) => each.url.split("/").at(-1)), ["one.mjs", "two.mjs", "root.mjs"]);
  const exported = evaluated(list);
  assert.deepEqual(Object.keys(exported), ["Named", "later", "values", "self", "url"]);
  const { values, self, url: itsUrl } = exported;
  assert.deepEqual([values, self, itsUrl], [["function", "function", 1, 2, 1, "function"], undefined, url.href]);
});

test("a thread takes what the engine has made of modules in another one", () => {
  const parameters = ["modules", "require", "loaded"];
  const { cachedData } = compileFunction("return { a: 2 };", parameters, { filename: "a:", produceCachedData: true });
  // The engine knows the code of what it has made by its length alone.
  assert.deepEqual(evaluated([{ url: "a:", code: "return { a: 1 };", compiled: cachedData }]), { a: 2 });
  const root = new URL("../../lib/program/program-worker.mjs", import.meta.url);
  const all = compiledModules(root);
  assert.deepEqual(all.map(({ url, code }) => ({ url, code })), ownModules(root));
  for (const { url, code, compiled } of all) {
    const made = compileFunction(code, parameters, { filename: url, cachedData: Buffer.from(compiled) });
    assert.equal(made.cachedDataRejected, false, url);
  }
});

test("a module of CommonJS is required as it is, once", (context) => {
  const folder = temporaryFolder(context);
  const counting = "globalThis.evaluatedOnes = (globalThis.evaluatedOnes ?? 0) + 1;\nexports.one = 1;\n";
  writeFileSync(join(folder, "one.cjs"), counting);
  const text = 'import { one } from "./one.cjs";\nexport const two = one + 1;\n';
  for (const name of ["a.mjs", "b.mjs"]) writeFileSync(join(folder, name), text);
  for (const name of ["a.mjs", "b.mjs"]) {
    const list = ownModules(pathToFileURL(join(folder, name)));
    assert.deepEqual([list.length, evaluated(list).two], [1, 2]);
  }
  assert.equal(globalThis.evaluatedOnes, 1);
});

test("a module that another one imports later is read then, and evaluated once", async (context) => {
  const folder = temporaryFolder(context);
  const files = {
    "one.mjs": "export const counted = { times: 0 };\n",
    "root.mjs": 'import { counted } from "./one.mjs";\nexport const now = counted;\n' +
      'export const loadLater = async () => (await import("./later.mjs")).same;\n',
  };
  for (const [name, code] of Object.entries(files)) writeFileSync(join(folder, name), code);
  const list = ownModules(pathToFileURL(join(folder, "root.mjs")));
  assert.deepEqual(list.map((each) => each.url.split("/").at(-1)), ["one.mjs", "root.mjs"]);
  const { loadLater, now } = evaluated(list);
  const later = 'import { counted } from "./one.mjs";\ncounted.times += 1;\nexport const same = counted;\n';
  writeFileSync(join(folder, "later.mjs"), later);
  assert.equal(await loadLater(), now);
  assert.equal(await loadLater(), now);
  assert.equal(now.times, 1);
});

/** What is read to note the paths of the recorder's own modules that a process and its threads read, a line each. */
const NOTING = `
  const fs = require("node:fs");
  const { readFileSync } = fs;
  fs.readFileSync = (file, ...rest) => {
    const path = String(file instanceof URL ? file.pathname : file).replaceAll("\\\\", "/");
    if (path.endsWith(".mjs")) fs.appendFileSync(process.env.NOTED, path + "\\n");
    return readFileSync(file, ...rest);
  };
`;

/**
 * The paths in the folder `lib` of the modules that a command reads.
 * @param {import("node:test").TestContext} context
 * @param {string[]} words of the command line
 */
function readBy(context, words) {
  const folder = temporaryFolder(context);
  const [noting, noted] = [join(folder, "noting.cjs"), join(folder, "noted")];
  writeFileSync(noting, NOTING);
  const env = { ...process.env, NOTED: noted };
  const all = ["--require", noting, RECORD, ...words];
  const { status, stderr } = nodeNow(all, { env });
  assert.equal(stderr, "");
  assert.ok(status === 0 || status === 1, `status ${status}`);
  return readFileSync(noted, "utf8").split("\n").flatMap((path) => path.split("/recorder/lib/").slice(1));
}

/** @param {string[]} read @param {string} first @param {string} second @returns {boolean} whether it was read later */
const isBefore = (read, first, second) => read.includes(first) && read.indexOf(first) < read.indexOf(second);

/** What only some commands need. */
const SELDOM = new RegExp([
  /^program\//, /^run\/program-state/, /^command\/replay/, /^shorter\/(shorten|stretches)\./, /^library\/caller/,
  /^keeping\/(page|pictures|document|kept-program|how-made|about)\./,
].map(({ source }) => source).join("|"));

test("a run of agents loads nothing that is for whole programs, replays or kept runs alone", (context) => {
  const read = readBy(context, [agentsPath("naive-mutex"), "--seeds", "1"]);
  const needed = ["command/main.mjs", "seeds/job-process.mjs", "run/referee.mjs", "agent/agent-worker.mjs"];
  assert.deepEqual(needed.filter((path) => !read.includes(path)), []);
  assert.deepEqual(read.filter((path) => SELDOM.test(path)), []);
  assert.ok(isBefore(read, "agent/agent-worker.mjs", "seeds/job.mjs"), "the workers don't await the job's modules");
});

test("modules for whole programs are loaded only for these, and those for kept runs when one is kept", (context) => {
  const program = fileURLToPath(new URL("../../examples/count-together.mjs", import.meta.url));
  const ofProgram = readBy(context, ["--program", program, "--seeds", "1"]);
  for (const path of ["program/program-group.mjs", "run/program-state.mjs"]) assert.ok(ofProgram.includes(path), path);
  assert.ok(!ofProgram.includes("agent/agent-worker.mjs"), "no workers begin that only a module of agents needs");
  const isFirst = isBefore(ofProgram, "program/program-worker.mjs", "seeds/job.mjs");
  assert.ok(isFirst, "the workers don't await the job's modules");
  const out = temporaryFolder(context);
  const few = ["--agents", "3", "--everywhere", "--seeds", "1..60", "--fail-fast"];
  const ofKept = readBy(context, [agentsPath("naive-mutex"), ...few, "--out", out]);
  for (const path of ["shorter/shorten.mjs", "keeping/kept-page.mjs"]) assert.ok(ofKept.includes(path), path);
  assert.deepEqual(ofKept.filter((path) => /^program\//.test(path)), []);
});

test("a module that imports or exports in another form is refused, with its line", (context) => {
  const wrong = [
    "export let count = 0;", "export default 5;", 'import * as all from "node:fs";', 'export * from "node:fs";',
  ];
  for (const line of wrong) {
    const url = written(context, `export const a = 1;\n${line}\n`);
    assert.throws(() => ownModules(url), (error) => error.message === `${url} can't be a function's body: ${line}`);
  }
});
