// How the recorder asks the simulator: a wrong module fails the check. `known.test.mjs` shows that the
// module and the native program agree.

import assert from "node:assert/strict";
import { cpSync, readFileSync, readdirSync, writeFileSync } from "node:fs";
import { join } from "node:path";
import { after, test } from "node:test";
import { fileURLToPath, pathToFileURL } from "node:url";
import { checkedBy } from "../../lib/check/check.mjs";
import { Difference } from "../../lib/check/difference.mjs";
import { simulatorAt } from "../../lib/simulator/chosen.mjs";
import { ModuleSimulator } from "../../lib/simulator/module.mjs";
import { agentsPath, fileIn, nodeNow, temporaryFolder } from "../helpers/common.mjs";
import { groupOf } from "../helpers/groups.mjs";
import { limited } from "../helpers/limited-module.mjs";
import { TRAPPING, misspelling } from "../helpers/wrong-modules.mjs";

const RECORDER = fileURLToPath(new URL("../../", import.meta.url));
const module = simulatorAt();

// All tests ask about the same run of a module of agents, with what the recorder has judged.
const group = await groupOf({ after }, agentsPath("three-state-mutex"), { agents: 3, everywhere: true });
const run = await group.one({ seed: 1, whole: true });

/**
 * A simulator whose module has other bytes.
 * @param {import("node:test").TestContext} context
 * @param {Uint8Array} bytes
 */
const simulatorOf = (context, bytes) =>
  new ModuleSimulator(pathToFileURL(fileIn(temporaryFolder(context), "sabsim.wasm", bytes)));

/** What modules are wrong in, and what the check says then. */
const WRONG = {
  "traps": [TRAPPING, /^seed 1: sabsim failed on the script: the simulator stopped: unreachable$/],
  "can't be compiled": [TRAPPING.subarray(0, 20), /^seed 1: sabsim failed on the script: WebAssembly.Module\(\): /],
  "has no memory": [
    limited(readFileSync(join(RECORDER, "wasm/sabsim.wasm")), 17),
    /^seed 1: sabsim ended with status 4 on the script: sabsim: 5 OutOfMemory$/,
  ],
  "writes a wrong report": [
    misspelling(),
    new RegExp("^seed 1: the code and sabsim differ, in line 3 of the report\\n {2}the code: 2 . 0 return 0\\n"
      + " {2}sabsim: {3}2 . 0 retorn 0$"),
  ],
};

test("several simulators of a process have the module compiled once", (context) => {
  const { Module } = WebAssembly;
  let times = 0;
  context.after(() => {
    WebAssembly.Module = Module;
  });
  WebAssembly.Module = class extends Module {
    constructor(bytes) {
      super(bytes);
      times += 1;
    }
  };
  const { file } = simulatorOf(context, readFileSync(join(RECORDER, "wasm/sabsim.wasm")));
  const ended = [new ModuleSimulator(file), new ModuleSimulator(file)].map((each) => each.run({ job: "replay" }, "{"));
  // Neither takes what is no JSON.
  assert.deepEqual(ended.map(({ status }) => status), [1, 1]);
  assert.equal(times, 1);
});

for (const [what, [bytes, why]] of Object.entries(WRONG)) {
  test(`a module that ${what} fails the check, each time`, (context) => {
    assert.ok(checkedBy(module, run).checked);
    const wrong = simulatorOf(context, bytes);
    for (const _ of [1, 2]) {
      assert.throws(() => checkedBy(wrong, run), { constructor: Difference, message: why });
    }
  });
}

/** The recorder without its tests and with another module, in a folder of its own. */
function recorderWith(context, bytes) {
  const folder = join(temporaryFolder(context), "recorder");
  const left = ["tests", "bench", "pictures"].map((name) => join(RECORDER, name));
  cpSync(RECORDER, folder, { recursive: true, filter: (from) => !left.includes(from) });
  writeFileSync(join(folder, "wasm/sabsim.wasm"), bytes);
  return join(folder, "record.mjs");
}

for (const [what, bytes, message] of [
  ["traps", TRAPPING, /^record: seed 1: sabsim failed on the script: the simulator stopped: unreachable$/m],
  ["writes a wrong report", misspelling(), /^record: seed 1: the code and sabsim differ, in line 3 of the report$/m],
]) {
  test(`with a module that ${what} the recorder ends with status 3, and keeps what it was asked`, (context) => {
    const out = join(temporaryFolder(context), "out");
    const small = ["--agents", "3", "--everywhere"];
    const words = [recorderWith(context, bytes), agentsPath("three-state-mutex"), "--seeds", "1..20", ...small,
      "--out", out];
    const env = { ...process.env, SABSIM: "" };
    const { status, stdout, stderr } = nodeNow(words, { env });
    assert.equal(status, 3, stderr);
    assert.match(stderr, message);
    assert.match(stdout, /^stopped after 1 of 20 runs\n[^]*^no run was checked$/m);
    assert.deepEqual(readdirSync(out).sort(), ["seed-1.json", "seed-1.report", "seed-1.sabsim-report"]);
  });
}

test("without a check a module that traps makes no explanation, picture or page, and that is said", (context) => {
  const out = join(temporaryFolder(context), "out");
  const words = [recorderWith(context, TRAPPING), agentsPath("cases"), "--seeds", "1", "--check", "0", "--out", out];
  const group = ["--agents", "2", "--everywhere", "--buffers", "12", "--", "waitsForEver"];
  const { status, stdout, stderr } = nodeNow([...words, ...group]);
  assert.deepEqual([status, stderr], [1, ""]);
  const why = "the simulator stopped: unreachable";
  const lines = ["explained", "svg", "html"].map((ending) => `not kept: seed-1.${ending}: ${why}\n`);
  assert.ok(stdout.endsWith(lines.join("")), stdout);
});
