// What another system does otherwise, tried here: its paths, its quoting, its environment and its files that are held.

import assert from "node:assert/strict";
import { spawn, spawnSync } from "node:child_process";
import { createHash } from "node:crypto";
import {
  appendFileSync, closeSync, constants, cpSync, existsSync, openSync, readFileSync, readdirSync, writeFileSync,
} from "node:fs";
import { syncBuiltinESMExports } from "node:module";
import os from "node:os";
import { join } from "node:path";
import { test } from "node:test";
import { setTimeout as wait } from "node:timers/promises";
import { fileURLToPath, pathToFileURL } from "node:url";
import { shortPath } from "../../lib/keeping/about-run.mjs";
import { makeFolder } from "../../lib/keeping/run-store.mjs";
import { besides, pathFrom } from "../../lib/keeping/kept-program.mjs";
import { onceFree } from "../../lib/keeping/once-free.mjs";
import { endRest } from "../../lib/processes/group-end.mjs";
import { POSIX, WINDOWS } from "../../lib/processes/platform.cjs";
import { readAll } from "../../lib/processes/read-all.mjs";
import { GRAPH_FLAGS } from "../../lib/program/node/graph-flags.cjs";
import { ignoringCase } from "../../lib/program/workers/process-env.mjs";
import { SourceNames } from "../../lib/run/words/source-names.mjs";
import { startJob } from "../../lib/seeds/start-job.cjs";
import { keptFolder } from "../../lib/suite/kept-folder.mjs";
import { Browser, withBrowser } from "../helpers/browser.mjs";
import { fileIn, temporaryFolder } from "../helpers/common.mjs";
import { needing, withPosixPaths, withSignals } from "../helpers/needs.mjs";
import { FACTS, FILE, OUTCOME, lines as linesOf } from "../helpers/page-run.mjs";
import { endOf } from "../helpers/programs.mjs";

const RECORDER = fileURLToPath(new URL("../../", import.meta.url));

/** @param {string} code */
const failing = (code) => Object.assign(new Error(code), { code });

/** @param {string} text */
const digestOf = (text) => `'sha256-${createHash("sha256").update(text).digest("base64")}'`;

/** @param {string} path of a module of the recorder @returns {string} its URL */
const urlOf = (path) => new URL(`../../${path}`, import.meta.url).href;

/**
 * Runs code in a process of its own.
 * @param {string} code
 * @param {string[]} [flags] of node
 */
function ranBy(code, flags = []) {
  const words = ["--no-warnings", ...flags, "--input-type=module", "-e", code];
  const { status, signal, stdout, stderr } = spawnSync(process.execPath, words, { encoding: "utf8" });
  return { status, signal, stdout, stderr };
}

/** @param {number} id @returns {boolean} whether there is such a process, or such a group of them if it is negative */
function isThere(id) {
  try {
    return process.kill(id, 0);
  } catch {
    return false;
  }
}

/** @param {string} folder @returns {string[]} the files below it */
const filesBelow = (folder) => readdirSync(folder, { withFileTypes: true }).flatMap((entry) => {
  const path = join(folder, entry.name);
  return entry.isDirectory() ? filesBelow(path) : [path];
});

/**
 * Copies what makes pages into a folder, with the line ends of Windows.
 * @param {import("node:test").TestContext} context
 * @returns {(path: string) => Promise<any>} imports a module of the copy
 */
function withCarriageReturns(context) {
  const folder = temporaryFolder(context);
  for (const part of ["lib", "page", "script", "schedule", "wasm"]) {
    cpSync(join(RECORDER, part), join(folder, part), { recursive: true });
  }
  for (const path of filesBelow(folder).filter((each) => /\.(c|m)js$|\.css$|\.html$/.test(each))) {
    writeFileSync(path, readFileSync(path, "utf8").replaceAll(/\r?\n/g, "\r\n"));
  }
  return (path) => import(pathToFileURL(join(folder, path)).href);
}

test("a page made of files with carriage returns has the digests that a browser makes of it", async (context) => {
  const { builtSimulator, documentOf } = await withCarriageReturns(context)("lib/keeping/document.mjs");
  const page = documentOf("try", "a title", {}, builtSimulator());
  // A parser of HTML makes one line feed of each pair before a browser makes its digests.
  const seen = page.replaceAll("\r\n", "\n");
  const [, style] = /<style>([^]*?)<\/style>/.exec(seen);
  const [, code] = /<script type="module">([^]*?)<\/script>/.exec(seen);
  assert.ok(style.length > 1_000 && code.length > 10_000);
  assert.ok(page.includes(digestOf(style)), "style");
  assert.ok(page.includes(digestOf(code)), "code");
});

const inBrowser = { ...withBrowser, timeout: 600_000 };

test("a page made of files with carriage returns shows its run", inBrowser, async (context) => {
  const { pageOfData, runDataOf } = await withCarriageReturns(context)("lib/keeping/kept-page.mjs");
  const path = fileIn(temporaryFolder(context), "seed-5.html", pageOfData(runDataOf(OUTCOME, linesOf(FACTS), FILE)));
  const browser = new Browser();
  context.after(() => browser.close());
  const page = await browser.open(pathToFileURL(path).href);
  assert.equal(await page.value('document.querySelector("#timeline [aria-selected=true]").id'), "step-8");
  assert.deepEqual(page.complaints(), []);
});

test("places in a project on Windows are named from the module's folder", () => {
  const names = new SourceNames("file:///C:/Users/me/p/src/lock.agents.mjs", WINDOWS);
  const expected = new Map([
    ["file:///C:/Users/me/p/src/lock.mjs:3:4", "lock.mjs:3:4"],
    ["file:///C:/Users/me/p/lib/b%20c.mjs:3:4", "../lib/b c.mjs:3:4"],
    ["C:\\Users\\me\\p\\lib\\a.cjs:5:6", "../lib/a.cjs:5:6"],
    ["C:\\Users\\me\\p\\src\\with space\\a.cjs:5:6", "with space/a.cjs:5:6"],
    ["file:///D:/other/a.mjs:1:2", "D:\\other\\a.mjs:1:2"],
    ["D:\\other\\a.cjs:1:2", "D:\\other\\a.cjs:1:2"],
    ["node:internal/timers:5:6", "node:internal/timers:5:6"],
  ]);
  for (const [source, name] of expected) assert.equal(names.nameOf(source), name);
});

test("texts with places of Windows have their names", () => {
  const names = new SourceNames("file:///C:/Users/me/p/src/lock.agents.mjs", WINDOWS);
  const lines = ["at f (file:///C:/Users/me/p/lib/b.mjs:3:4)", "at C:\\Users\\me\\p\\src\\a.cjs:5:6", "at node:fs:1:2"];
  assert.equal(names.withNames(lines.join("\n")), "at f (../lib/b.mjs:3:4)\nat a.cjs:5:6\nat node:fs:1:2");
});

test("paths in what is kept have slashes on each system", () => {
  assert.equal(pathFrom("C:\\p\\found", "C:\\p\\src\\m.mjs", WINDOWS), "../src/m.mjs");
  assert.equal(pathFrom("/p/found", "/p/src/m.mjs", POSIX), "../src/m.mjs");
  // What one system has kept is found by the other.
  const onWindows = pathFrom("C:\\p\\found", "C:\\p\\src\\m.mjs", WINDOWS);
  const here = pathFrom("/p/found", "/p/src/m.mjs", POSIX);
  assert.equal(besides("/p/found/seed-1.program.json", onWindows, POSIX), "/p/src/m.mjs");
  assert.equal(besides("C:\\p\\found\\seed-1.program.json", here, WINDOWS), "C:\\p\\src\\m.mjs");
  // A sign that parts nothing here stays.
  assert.equal(pathFrom("/p/found", "/p/src/a\\b.mjs", POSIX), "../src/a\\b.mjs");
  assert.equal(shortPath("C:\\p\\src\\m.mjs", "C:\\p", WINDOWS), "src/m.mjs");
  assert.equal(shortPath("D:\\m.mjs", "C:\\p", WINDOWS), "D:/m.mjs");
  assert.equal(shortPath("/p/src/a\\b.mjs", "/p", POSIX), "src/a\\b.mjs");
});

test("a word is quoted as the system's shell takes it", () => {
  assert.deepEqual(["src/m.mjs", "a b", "it's"].map(POSIX.quoted), ["src/m.mjs", "'a b'", "'it'\\''s'"]);
  assert.deepEqual(["src/m.mjs", "a b", "it's"].map(WINDOWS.quoted), ["src/m.mjs", '"a b"', '"it\'s"']);
  // PowerShell makes a list of 8,2, and drops a bare --.
  assert.deepEqual(["8,2", "--", "--web", "a\\", 'a "b\\"'].map(WINDOWS.quoted),
    ['"8,2"', '"--"', "--web", '"a\\\\"', '"a \\"b\\\\\\""']);
  assert.deepEqual(["8,2", "--"].map(POSIX.quoted), ["8,2", "--"]);
});

test("no folder is looked for above a drive", withPosixPaths, (context) => {
  const folder = temporaryFolder(context);
  const before = process.cwd();
  process.chdir(folder);
  context.after(() => process.chdir(before));
  // Here each of these paths is one name, in the working directory. Windows refuses to make a drive.
  makeFolder("Z:\\a\\b", WINDOWS);
  assert.deepEqual(readdirSync(folder).sort(), ["Z:\\", "Z:\\a", "Z:\\a\\b"]);
  makeFolder(join(folder, "a/b/c"));
  assert.ok(existsSync(join(folder, "a/b/c")));
});

test("a file that another program holds for a moment is tried again, on systems where one can", () => {
  let left = 2;
  const held = () => {
    left -= 1;
    if (left >= 0) throw failing("EPERM");
    return "done";
  };
  assert.equal(onceFree(held, WINDOWS), "done");
  left = 2;
  assert.throws(() => onceFree(held, POSIX), { code: "EPERM" });
  assert.throws(() => onceFree(() => { throw failing("ENOENT"); }, WINDOWS), { code: "ENOENT" });
  const begun = performance.now();
  const busy = () => {
    throw failing("EBUSY");
  };
  assert.throws(() => onceFree(busy, { ...WINDOWS, heldMilliseconds: 60 }), { code: "EBUSY" });
  assert.ok(performance.now() - begun >= 60);
});

test("an input that has nothing yet is waited for, and EOF is an end", () => {
  const steps = ["ab", "EAGAIN", "c", "EAGAIN", "EOF"];
  const read = (_, bytes) => {
    const step = steps.shift();
    if (step.length > 2) throw failing(step);
    return Buffer.from(step).copy(bytes);
  };
  assert.equal(readAll(0, Infinity, read).toString(), "abc");
  assert.deepEqual(steps, []);
  assert.equal(readAll(0, 3, (_, bytes) => Buffer.from("abcdef").copy(bytes)).toString(), "abc");
  assert.throws(() => readAll(0, 3, () => { throw failing("EIO"); }), { code: "EIO" });
});

test("the environment of Windows finds a name in any case, and keeps it as it was written", () => {
  const env = ignoringCase({ Path: "C:\\bin", home: "h" });
  assert.deepEqual([env.PATH, env.path, env.Home, env.none], ["C:\\bin", "C:\\bin", "h", undefined]);
  assert.ok("PATH" in env && !("none" in env) && Object.hasOwn(env, "pAtH"));
  env.PATH = "other";
  env.New = "1";
  assert.deepEqual(Object.entries(env), [["Path", "other"], ["home", "h"], ["New", "1"]]);
  delete env.HOME;
  assert.deepEqual(Object.keys(env), ["Path", "New"]);
});

test("without signals the status is the one that shells report", () => {
  const ended = (signal, platform) => ranBy(`import { endBy } from "${urlOf("lib/command/interruption.mjs")}";
import platforms from "${urlOf("lib/processes/platform.cjs")}";
setTimeout(() => {}, 60_000);
endBy("${signal}", platforms.${platform});`);
  assert.deepEqual(["SIGINT", "SIGTERM"].map((signal) => ended(signal, "WINDOWS").status), [130, 143]);
});

test("with signals the process ends by its own", withSignals, () => {
  const { status, signal } = ranBy(`import { endBy } from "${urlOf("lib/command/interruption.mjs")}";
setTimeout(() => {}, 60_000);
endBy("SIGTERM");`);
  assert.deepEqual([status, signal], [null, "SIGTERM"]);
});

test("a job leads a group of processes where there are groups, and else has the console", withSignals, async () => {
  for (const [platform, leads] of [[POSIX, true], [WINDOWS, false]]) {
    const job = startJob({}, platform);
    const ended = new Promise((done) => {
      job.on("exit", done);
    });
    assert.deepEqual([isThere(job.pid), isThere(-job.pid)], [true, leads]);
    job.kill("SIGKILL");
    await ended;
  }
});

test("what is left of a job is ended by its group, and never by the number of a process", withSignals, async () => {
  const left = spawn(process.execPath, ["-e", "setTimeout(() => {}, 60_000)"], { detached: true, stdio: "ignore" });
  const ended = new Promise((done) => {
    left.on("exit", (_, signal) => done(signal));
  });
  endRest(left.pid, WINDOWS);
  await wait(200);
  assert.deepEqual([left.exitCode, left.signalCode], [null, null]);
  endRest(left.pid, POSIX);
  assert.equal(await ended, "SIGKILL");
});

test("how long a program's children are waited for is the machine's time, and not the run's", () => {
  const { status, stdout, stderr } = ranBy(`import { spawn } from "node:child_process";
import { simulateTime } from "${urlOf("lib/agent/time.mjs")}";
import { Children } from "${urlOf("lib/program/real/children.mjs")}";
const children = new Children({ add() {}, remove() {} }, () => false);
children.install();
const begun = process.hrtime.bigint;
const child = spawn(process.execPath, ["-e", "setTimeout(() => {}, 10_000)"], { stdio: "ignore" });
const { kill } = child;
child.kill = () => {};
const before = Number(begun()) / 1e6;
simulateTime(() => 0);
const tooLong = setTimeout(() => process.exit(7), 8_000);
children.end((areEnded) => {
  clearTimeout(tooLong);
  console.log(areEnded, Number(begun()) / 1e6 - before >= 150);
  kill.call(child, "SIGKILL");
});`, GRAPH_FLAGS);
  assert.deepEqual([status, stdout], [0, "false true\n"], stderr);
});

test("where there is an lchmod, a program's calls of it are made at once", () => {
  const { status, stdout, stderr } = ranBy(`import fs from "node:fs";
fs.lchmod = () => console.log("by a thread of node's own");
fs.lchmodSync = (...given) => console.log("at once", ...given);
const { putFiles } = await import("${urlOf("lib/program/sync/sync-files.mjs")}");
putFiles({ later: (name, act) => setImmediate(act), isPlaying: () => true });
fs.lchmod("file", 0o600, (error) => console.log("then", error));`, GRAPH_FLAGS);
  assert.deepEqual([status, stdout], [0, "at once file 384\nthen null\n"], stderr);
});

test("runs of a test suite are kept for a user whose number has no name", (context) => {
  const { userInfo } = os;
  context.after(() => {
    os.userInfo = userInfo;
    syncBuiltinESMExports();
  });
  os.userInfo = () => {
    throw failing("ERR_SYSTEM_ERROR");
  };
  syncBuiltinESMExports();
  assert.match(keptFolder("file:///home/me/lock.mjs", "one"), /[\\/]sabsim--?\d+[\\/]lock\.mjs-[0-9a-f]{12}$/);
});

const withPipe = needing("mkfifo", spawnSync("mkfifo", ["--version"]).status === 0);

test("a standard input that doesn't block is read to its end", withPipe, async (context) => {
  const folder = temporaryFolder(context);
  const pipe = join(folder, "pipe");
  const [script, report] = ["json", "report"].map((ending) =>
    readFileSync(new URL(`../../../examples/lost-wake-up.${ending}`, import.meta.url)));
  assert.equal(spawnSync("mkfifo", [pipe]).status, 0);
  const from = openSync(pipe, constants.O_RDONLY | constants.O_NONBLOCK);
  const to = openSync(pipe, "a");
  const words = [join(RECORDER, "sabsim.mjs"), "replay"];
  // Without the native program, which reads by itself.
  const child = spawn(process.execPath, words, { stdio: [from, "pipe", "pipe"], env: { ...process.env, SABSIM: "" } });
  const ended = endOf(child);
  for (const part of [script.subarray(0, 40), script.subarray(40)]) {
    await wait(300);
    appendFileSync(to, part);
  }
  closeSync(to);
  closeSync(from);
  const { status, stdout, stderr } = await ended;
  assert.deepEqual([status, stdout, stderr], [0, report.toString(), ""]);
});

const ofGit = spawnSync("git", ["ls-files", "--eol", "-z"], { cwd: join(RECORDER, ".."), encoding: "utf8" });
const inClone = needing("clone of the repository", ofGit.status === 0);

test("a checkout has the same line ends on each system", inClone, () => {
  const { stdout } = ofGit;
  const lines = stdout.split("\0").filter((line) => line !== "");
  const files = lines.map((line) => /^i\/(\S*) +w\/\S* +attr\/(.*?) *\t/.exec(line));
  assert.ok(files.length > 1_000);
  const isRight = (ends, attributes) => (ends === "lf" && attributes === "text=auto eol=lf")
    || attributes === "-text" || ends === "none" || ends === "";
  assert.deepEqual(lines.filter((_, at) => !isRight(files[at][1], files[at][2])), []);
});
