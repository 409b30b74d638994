// On which nodes whole programs run: one that lacks something of its inside refuses them, one that wasn't tried is
// named, and TypeScript is run where node loads it.

import assert from "node:assert/strict";
import { readFileSync, writeFileSync } from "node:fs";
import { join } from "node:path";
import { test } from "node:test";
import { TRIED } from "../../lib/processes/node-versions.mjs";
import { record } from "../../recorder.mjs";
import { RECORD, nodeNow, temporaryFolder } from "../helpers/common.mjs";
import { loadsTypeScript, typeScriptWords, withTypeScript } from "../helpers/typescript-hook.mjs";
import { whereNodeHasIt } from "../helpers/where-node-has-it.mjs";

const PROGRAM = `import { Worker, isMainThread, workerData } from "node:worker_threads";
if (isMainThread) {
  const memory = new Int32Array(new SharedArrayBuffer(4));
  new Worker(new URL(import.meta.url), { workerData: memory }).on("exit", () => {
    if (Atomics.load(memory, 0) !== 1) throw new Error("never");
  });
} else Atomics.add(workerData, 0, 1);
`;

const AGENTS = `export const setup = { agents: 2, buffers: [4] };
export default function agent({ buffers: [memory] }) { Atomics.add(new Int32Array(memory), 0, 1); }
`;

/** What a node has that lacks functions of its inside: threads of programs alone can ask for two of these. */
const LACKING = `delete process._getActiveHandles;
try {
  delete require("internal/error_serdes").deserializeError;
  delete require("internal/util").SideEffectFreeRegExpPrototypeSymbolReplace;
} catch { /* This thread can't ask for them. */ }
`;

const UNTRIED = process.version.replace(/^v(\d+)\..*/, "v$1.99.0");

/** Files in a folder of their own. */
function filesIn(context, files) {
  const folder = temporaryFolder(context);
  for (const [name, text] of Object.entries(files)) writeFileSync(join(folder, name), text);
  return (name) => join(folder, name);
}

/** What the recorder's command line does, with words for node before it. */
const ranBy = (words, nodeWords = []) => nodeNow([...nodeWords, RECORD, ...words, "--seeds", "1..2"]);

test("a node that lacks something of its inside refuses programs by name, and runs modules of agents", (context) => {
  const file = filesIn(context, { "main.mjs": PROGRAM, "agents.mjs": AGENTS, "lacking.cjs": LACKING });
  const nodeWords = ["--require", file("lacking.cjs")];
  const { status, stdout, stderr } = ranBy(["--program", file("main.mjs")], nodeWords);
  assert.equal(status, 2, stderr);
  assert.equal(stdout, "");
  assert.equal(stderr, `record: whole programs don't run on node ${process.versions.node}, which lacks `
    + "deserializeError of internal/error_serdes, SideEffectFreeRegExpPrototypeSymbolReplace of internal/util, "
    + "process._getActiveHandles. They were tried on node 20.20 and 24.22. Modules of agents run on this node, too\n");
  const ofAgents = ranBy([file("agents.mjs")], nodeWords);
  assert.equal(ofAgents.status, 0, ofAgents.stderr);
});

test("the summary names a version on which programs weren't tried, as text and as JSON", (context) => {
  const file = filesIn(context, {
    "main.mjs": PROGRAM, "agents.mjs": AGENTS,
    "untried.cjs": `Object.defineProperty(process, "version", { value: ${JSON.stringify(UNTRIED)} });`,
  });
  const nodeWords = ["--require", file("untried.cjs")];
  const line = `programs weren't tried on node ${UNTRIED.slice(1)}: README says on which versions they were`;
  const { status, stdout, stderr } = ranBy(["--program", file("main.mjs")], nodeWords);
  assert.equal(status, 0, stderr);
  assert.equal(stdout.split("\n").filter((each) => each === line).length, 1, stdout);
  const json = ranBy(["--program", file("main.mjs"), "--format", "json"], nodeWords);
  assert.deepEqual(JSON.parse(json.stdout).untriedNodes, [UNTRIED.slice(1)]);
  assert.doesNotMatch(ranBy([file("agents.mjs")], nodeWords).stdout, /weren't tried/);
});

whereNodeHasIt(!loadsTypeScript)("a program in TypeScript is refused by a node that loads none", async (context) => {
  const file = filesIn(context, { "main.ts": RACING });
  const { status, stdout, stderr } = ranBy(["--program", file("main.ts")]);
  assert.deepEqual([status, stdout], [2, ""]);
  const why = /main\.ts can't be run: it is TypeScript, which this node doesn't load: compile it first/;
  assert.match(stderr, why);
  await assert.rejects(record({ program: file("main.ts"), seed: 1 }), why);
});

const RACING = `import { Worker, isMainThread, workerData } from "node:worker_threads";
type Memory = Int32Array;

const memory: Memory = isMainThread ? new Int32Array(new SharedArrayBuffer(4)) : workerData;
if (isMainThread) new Worker(new URL(import.meta.url), { workerData: memory });
memory[0] += 1;
`;

withTypeScript("a program in TypeScript has its own lines", (context) => {
  const file = filesIn(context, { "main.ts": RACING, "other.mts": RACING });
  const nodeWords = typeScriptWords(file("."), /^type .*|: Memory/gm);
  for (const name of ["main.ts", "other.mts"]) {
    const { status, stdout, stderr } = ranBy(["--program", file(name)], nodeWords);
    assert.equal(status, 1, stderr);
    assert.match(stdout,
      new RegExp(`agent 1 \\(${name}, started at ${name}:5:19\\) (?:reads|writes) .* at ${name}:6:`));
  }
});

test("the package and the documents name the versions that were tried", () => {
  const textOf = (name) => readFileSync(new URL(`../../../${name}`, import.meta.url), "utf8");
  assert.deepEqual(JSON.parse(textOf("package.json")).tried.node, TRIED);
  for (const name of ["README.md", "recorder/README.md", "docs/RECORDER.md", "CHANGELOG.md"]) {
    assert.ok(textOf(name).includes(TRIED.join(" and ")), name);
  }
});
