// Commands that take this system for Windows in one respect, by a file that is loaded before them.

import assert from "node:assert/strict";
import { spawn, spawnSync } from "node:child_process";
import { cpSync, mkdirSync, readdirSync, writeFileSync } from "node:fs";
import { join } from "node:path";
import { test } from "node:test";
import { fileURLToPath } from "node:url";
import { MACHINE } from "../../lib/processes/platform.cjs";
import { RECORD, agentsIn, agentsPath, temporaryFolder } from "../helpers/common.mjs";
import { withShell, withSignals } from "../helpers/needs.mjs";
import { endOf } from "../helpers/programs.mjs";
import { programIn } from "../helpers/whole-programs.mjs";

/** @typedef {import("../../lib/processes/platform.cjs").Platform} Platform */

const RECORDER = fileURLToPath(new URL("../../", import.meta.url));

/**
 * The words by which node's command takes this system for one that differs as Windows does.
 * @param {string} folder for the file that says so
 * @param {(keyof Platform)[]} names of what differs
 * @param {{ recorder?: string, code?: string }} [how] the folder of the recorder that is run; what the file does, too
 */
function asOnWindows(folder, names, { recorder = RECORDER, code = "" } = {}) {
  const path = join(folder, "as-on-windows.cjs");
  writeFileSync(path, `const platforms = require(${JSON.stringify(join(recorder, "lib/processes/platform.cjs"))});
const { ${names.join(", ")} } = platforms.WINDOWS;
platforms.HERE = { ...platforms.HERE, ${names.join(", ")} };
${code}`);
  return ["--require", path];
}

/** @param {string[]} words of node's command line */
function ended(words) {
  const { status, signal, stdout, stderr } = spawnSync(process.execPath, words, { encoding: "utf8" });
  return { status, signal, stdout, stderr };
}

test("a launcher without signals reports by its status which one has ended the program sabsim.exe", withShell,
  (context) => {
    const folder = temporaryFolder(context);
    const recorder = join(folder, "recorder");
    for (const part of ["sabsim.mjs", "lib/processes", "script", "wasm"]) {
      cpSync(join(RECORDER, part), join(recorder, part), { recursive: true });
    }
    const programs = join(folder, "program", MACHINE);
    mkdirSync(programs, { recursive: true });
    writeFileSync(join(programs, "sabsim.exe"), '#!/bin/sh\nkill -"$1" $$\n', { mode: 0o755 });
    const flags = asOnWindows(folder, ["programEnding", "hasSignals"], { recorder });
    const wanted = [["INT", 130], ["TERM", 143], ["KILL", 137]];
    const found = wanted.map(([signal]) => ended([...flags, join(recorder, "sabsim.mjs"), `${signal}`]));
    assert.deepEqual(found, wanted.map(([, status]) => ({ status, signal: null, stdout: "", stderr: "" })));
  });

test("a program's first thread finds the names of its environment in any case, and others don't", (context) => {
  const folder = temporaryFolder(context);
  const main = programIn(folder, {
    "main.mjs": `import { Worker } from "node:worker_threads";
process.env.Own_Name = "it";
console.log(process.env.OWN_NAME, Object.keys(process.env).filter((name) => /^own_name$/i.test(name)));
new Worker(new URL("./worker.mjs", import.meta.url));
`,
    "worker.mjs": "console.log(process.env.OWN_NAME, process.env.Own_Name);\n",
  });
  const words = [RECORD, "--program", main, "--seeds", "1", "--check", "0"];
  const { status, stderr } = ended([...asOnWindows(folder, ["ignoresCase"]), ...words]);
  assert.deepEqual([status, stderr], [0, `[main] it [ 'Own_Name' ]
[worker.mjs started at main.mjs:4:1] undefined it
`]);
});

test("a job without a group of its own isn't ended by the console's SIGINT", withSignals, (context) => {
  const folder = temporaryFolder(context);
  const module = agentsIn(folder, `
    if (agent === 0) process.kill(process.pid, "SIGINT");
    Atomics.add(new Int32Array(buffers[0]), 0, 1);
  `);
  const words = [RECORD, module, "--agents", "2", "--buffers", "4", "--seeds", "1..20", "--jobs", "1", "--check", "0"];
  const { status, stdout, stderr } = ended([...asOnWindows(folder, ["hasGroups"]), ...words]);
  assert.deepEqual([status, stderr], [0, ""]);
  assert.match(stdout, /^20 runs: 20 finished$/m);
  // With a group it is a signal of somebody's, who means this process.
  const { status: otherwise, stderr: problem } = ended(words);
  assert.equal(otherwise, 3);
  assert.match(problem, /^record: a job's process ended by itself \(SIGINT\)/);
});

test("a SIGINT that the command and its job both get ends both, after what was found is printed", withSignals,
  async (context) => {
    const folder = temporaryFolder(context);
    const module = agentsIn(folder, `
      if (agent === 0 && globalThis.hasBegun === undefined) console.log(globalThis.hasBegun = "begun");
      Atomics.add(new Int32Array(buffers[0]), 0, 1);
    `);
    const words = [RECORD, module, "--agents", "2", "--buffers", "4", "--seeds", "1..10000000", "--jobs", "1"];
    const child = spawn(process.execPath, [...asOnWindows(folder, ["hasGroups"]), ...words], { detached: true });
    // The job holds its pipes too, so it has ended then.
    const end = endOf(child);
    await new Promise((begun) => {
      for (const name of ["stdout", "stderr"]) child[name].on("data", (text) => text.includes("\n") && begun());
    });
    // As a console does it.
    process.kill(-child.pid, "SIGINT");
    const { stdout, signal } = await end;
    assert.equal(signal, "SIGINT");
    assert.match(stdout, /^interrupted by SIGINT after [\d,]+ of 10,000,000 runs$/m);
  });

/** Each file in a folder is held by another program the first two times that it is removed or gets another name. */
const holding = (folder) => `const fs = require("node:fs");
for (const name of ["rmSync", "renameSync"]) {
  const [own, times] = [fs[name], new Map()];
  fs[name] = (path, ...others) => {
    times.set(path, (times.get(path) ?? 0) + 1);
    const isHeld = path.startsWith(${JSON.stringify(folder)}) && times.get(path) <= 2;
    if (isHeld) throw Object.assign(new Error("EBUSY: it is held"), { code: "EBUSY" });
    return own(path, ...others);
  };
}
require("node:module").syncBuiltinESMExports();
`;

test("files that another program holds for a moment are kept, and removed, all the same", (context) => {
  const folder = temporaryFolder(context);
  const out = join(folder, "found");
  const words = [RECORD, agentsPath("naive-mutex"), "--seeds", "1..60", "--check", "0", "--no-shorten", "--out", out];
  const code = holding(out);
  const { status, stdout, stderr } = ended([...asOnWindows(folder, ["heldMilliseconds"], { code }), ...words]);
  assert.deepEqual([status, stderr], [1, ""]);
  const [, names] = /^kept in .*: (.*)$/m.exec(stdout);
  assert.ok(names.split(", ").length >= 5, names);
  assert.deepEqual(readdirSync(out).sort(), names.split(", ").sort());
  // Where no program can hold a file, an error is an error.
  const once = ended([...asOnWindows(folder, [], { code }), ...words]);
  assert.deepEqual([once.status, once.stderr], [2, `record: --out ${out} can't be used: EBUSY: it is held\n`]);
});
