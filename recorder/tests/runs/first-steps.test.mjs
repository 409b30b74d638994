// What a first try of the recorder meets: a program in place of a module of agents, TypeScript,
// a folder that can't be made, the short options; and that agents don't see what the recorder has handed their workers.

import assert from "node:assert/strict";
import { existsSync, readFileSync, writeFileSync } from "node:fs";
import { join } from "node:path";
import { test } from "node:test";
import { fileURLToPath, pathToFileURL } from "node:url";
import { RunStore } from "../../lib/keeping/run-store.mjs";
import { Refused } from "../../lib/options/refused.mjs";
import { loadProblem } from "../../lib/run/words/load-problem.mjs";
import { record } from "../../recorder.mjs";
import { commandHere } from "../helpers/command-here.mjs";
import { RECORD, fileIn, nodeNow, temporaryFolder } from "../helpers/common.mjs";
import { onLinux } from "../helpers/needs.mjs";

const MERGE = fileURLToPath(new URL("../../merge.mjs", import.meta.url));

/** Runs a program of the recorder. */
const run = (program, words) => nodeNow([program, ...words], { timeout: 60_000 });

/** A file in a new folder. */
const fileWith = (context, name, text) => fileIn(temporaryFolder(context), name, text);

const PROGRAM = `
  import { writeFileSync } from "node:fs";
  writeFileSync(new URL("ran", import.meta.url), "");
`;

test("a program given as a module of agents is refused before it runs, with what such a module is", async (context) => {
  const file = fileWith(context, "program.mjs", PROGRAM);
  const why = `${file} is no module of agents, since it has no default export. If it is a program, give it as `
    + "`program` (--program). An agent is a function: export default function agent({ buffers, agent }) { .. }";
  assert.deepEqual(run(RECORD, [file]), { status: 2, stdout: "", stderr: `record: ${why}\n` });
  const asked = record({ module: pathToFileURL(file), agents: 1, buffers: [4] });
  await assert.rejects(asked, (error) => error instanceof Refused && error.message === why);
  assert.ok(!existsSync(join(file, "../ran")));
});

test("each way to export an agent is taken", async (context) => {
  const body = "({ buffers: [buffer] }) => { Atomics.add(new Int32Array(buffer), 0, 1); }";
  const ways = {
    "direct.mjs": `export default ${body};`,
    "renamed.mjs": `const agent = ${body};\nexport { agent as default };`,
    "again.mjs": 'export { default } from "./direct.mjs";',
    "module.cjs": `module.exports = ${body};`,
    "compiled.cjs": `exports.__esModule = true;\nexports.default = ${body};`,
  };
  const folder = temporaryFolder(context);
  for (const [name, text] of Object.entries(ways)) writeFileSync(join(folder, name), `${text}\n`);
  for (const name of Object.keys(ways)) {
    const { ending } = await record({ module: join(folder, name), agents: 1, buffers: [4], sabsim: false });
    assert.equal(ending, "finished", name);
  }
});

test("if a file that looks like a program throws, the error says what a module of agents is", async (context) => {
  const hint = /\nIt looks like a program, or like the file of its Worker\. A module of agents starts no threads: /;
  const thrown = 'throw new RangeError("at once");\nexport default () => {};\n';
  const worker = fileWith(context, "worker.mjs", `import { workerData } from "node:worker_threads";\n${thrown}`);
  const plain = fileWith(context, "plain.mjs", thrown);
  for (const [file, isProgram] of [[worker, true], [plain, false]]) {
    const { status, stderr } = await commandHere([file, "--agents", "1", "--buffers", "4"]);
    assert.equal(status, 2);
    assert.match(stderr, /^record: .* can't be loaded: RangeError: at once\n/);
    assert.equal(hint.test(stderr), isProgram, stderr);
  }
});

test("TypeScript that this node doesn't load is refused with what to do, without node's stack", (context) => {
  const file = fileWith(context, "agents.ts", "export default (run: { buffers: SharedArrayBuffer[] }): void => {};\n");
  const url = pathToFileURL(file).href;
  const why = `${url} can't be loaded: it is TypeScript, which this node doesn't load: compile it first, and give the `
    + ".js file. Source maps are followed, so lines are those of the .ts file";
  const problem = 'TypeError [ERR_UNKNOWN_FILE_EXTENSION]: Unknown file extension ".ts" for /agents.ts\n    at node';
  assert.equal(loadProblem(url, problem), why);
  const without = "Error [ERR_NO_TYPESCRIPT]: Node.js is not compiled with TypeScript support\n    at node";
  assert.equal(loadProblem(url, without), why);
  assert.equal(loadProblem(url, "Error: its own"), `${url} can't be loaded: Error: its own`);
  if (process.features.typescript) return;
  const { status, stderr } = run(RECORD, [file, "--agents", "1", "--buffers", "4"]);
  assert.deepEqual([status, stderr], [2, `record: ${why}\n`]);
});

test("a folder that can't be made is refused at once", onLinux, (context) => {
  for (const path of ["/proc/x", "/proc/x/y"]) {
    assert.throws(() => new RunStore(path), (error) => {
      return error instanceof Refused
        && /^--out \/proc\/x\S* can't be used: ENOENT: .*mkdir '\/proc\/x'$/.test(error.message);
    });
  }
  const deep = join(temporaryFolder(context), "one", "two", "three");
  assert.deepEqual(new RunStore(deep).names, []);
  assert.ok(existsSync(deep));
});

test("-h and -V do what --help and --version do, as sabsim's, and -v is refused as there", () => {
  const { version } = JSON.parse(readFileSync(new URL("../../../package.json", import.meta.url), "utf8"));
  for (const [program, name] of [[RECORD, "record"], [MERGE, "merge"]]) {
    const help = run(program, ["--help"]);
    assert.match(help.stdout, new RegExp(`^usage: node recorder/${name}\\.mjs `));
    assert.deepEqual(run(program, ["-h"]), help);
    const printed = { status: 0, stdout: `sabsim-${name} ${version}\n`, stderr: "" };
    for (const word of ["-V", "--version"]) assert.deepEqual(run(program, [word]), printed, word);
    assert.equal(run(program, ["-v"]).status, 2);
  }
  assert.equal(run(RECORD, ["-v"]).stderr, "record: there is no option -v: is -V meant?\n");
});

test("an agent sees nothing of what the recorder has handed its worker", async (context) => {
  const module = fileWith(context, "sees.mjs", `
    import threads, { workerData } from "node:worker_threads";
    import { createRequire } from "node:module";
    const found = [workerData, threads.workerData, createRequire(import.meta.url)("worker_threads").workerData];
    export const setup = { agents: 1, buffers: [4] };
    export default ({ buffers }) => {
      Atomics.load(new Int32Array(buffers[0]), 0);
      found.push(threads.workerData);
      if (found.some((each) => each !== null)) throw new Error("it sees " + Object.keys(found[0] ?? {}));
    };
  `);
  const { ending, detail } = await record({ module, agents: 1, sabsim: false });
  assert.deepEqual([ending, detail], ["finished", ""]);
});
