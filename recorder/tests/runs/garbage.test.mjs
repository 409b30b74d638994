// Garbage is collected in the recorder's own processes, and agents see nothing of it.

import assert from "node:assert/strict";
import { test } from "node:test";
import { fileURLToPath } from "node:url";
import { RECORD, agentsIn, nodeNow, temporaryFolder } from "../helpers/common.mjs";
import { WATCHING } from "../helpers/watched-garbage.mjs";

const GARBAGE = new URL("../../lib/processes/garbage.mjs", import.meta.url).href;

/** Code that prints what it sees of an object that nobody has any more. */
const PRINTING = `console.log(...await (${WATCHING})(onceMore));`;

/** What a process prints. @param {string} code */
function printed(code) {
  const words = ["--input-type=module", "--eval", `import { collectGarbage, onceMore } from "${GARBAGE}";\n${code}`];
  const { stdout, stderr } = nodeNow(words);
  assert.equal(stderr, "");
  return stdout;
}

test("a process that asks for it collects its garbage once in 1,024 times, and so do its threads", () => {
  assert.equal(printed(`collectGarbage();\n${PRINTING}`), "true false\n");
  assert.equal(printed(PRINTING), "true true\n");
  const inThread = `import("${GARBAGE}").then(async ({ onceMore }) => {${PRINTING}});`;
  const starting = `
    const { Worker } = await import("node:worker_threads");
    new Worker(${JSON.stringify(inThread)}, { eval: true });
  `;
  assert.equal(printed(`collectGarbage();\n${starting}`), "true false\n");
  assert.equal(printed(starting), "true true\n");
});

test("the process of a job collects garbage in the workers that it begins before it has loaded its module", () => {
  const fileOf = (path) => fileURLToPath(new URL(path, import.meta.url));
  const module = new URL("../helpers/begun-thread.mjs", import.meta.url).href;
  const words = [fileOf("../../lib/processes/own-process.cjs"), module, GARBAGE, GARBAGE, "1"];
  const { stdout, stderr } = nodeNow(words);
  assert.deepEqual([stdout, stderr], ["true false undefined\n", ""]);
});

test("agents have `gc` only if node was started with it", (context) => {
  const module = agentsIn(temporaryFolder(context), `
    Atomics.add(new Int32Array(buffers[0]), 0, 1);
    console.log(typeof globalThis.gc);
  `);
  const words = [RECORD, module, "--agents", "1", "--buffers", "4", "--seeds", "1", "--check", "0"];
  const seen = (...nodes) => nodeNow([...nodes, ...words]).stderr;
  assert.equal(seen(), "undefined\n");
  assert.equal(seen("--expose-gc"), "function\n");
});
