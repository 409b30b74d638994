// Sockets, pipes and child processes of whole programs: the machine answers, and that an answer comes is a move.

import assert from "node:assert/strict";
import { existsSync, readFileSync, readdirSync } from "node:fs";
import { join } from "node:path";
import { describe, it } from "node:test";
import { pathToFileURL } from "node:url";
import { defaultsOf } from "../../lib/options/table.mjs";
import { commandThere, fileIn, temporaryFolder } from "../helpers/common.mjs";
import { jobOutcomes } from "../helpers/job-runs.mjs";
import { onLinux, withShell } from "../helpers/needs.mjs";
import { CLOSED, LISTENS, ONE_THREAD, RACE, TWO_THREADS } from "../helpers/real-programs.mjs";
import { seedsTo } from "../helpers/recorded.mjs";
import { programOf, runsOf } from "../helpers/whole-programs.mjs";

/** @param {{ ending: string, detail: string }[]} outcomes none of which fails */
const areFinished = (outcomes) =>
  assert.deepEqual(outcomes.filter(({ ending }) => ending !== "finished").map(({ detail }) => detail), []);

const OTHERWISE = "its input may have been different";

/** Each way by which a program begins a process, with its standard input and output. */
const PROCESSES = `import { exec, execFile, execFileSync, execSync, fork, spawn, spawnSync } from "node:child_process";
import assert from "node:assert/strict";
import { once } from "node:events";
import { promisify } from "node:util";
assert.equal((await promisify(exec)("echo by exec")).stdout, "by exec\\n");
assert.equal((await promisify(execFile)("echo", ["by execFile"])).stdout, "by execFile\\n");
const cat = spawn("cat", { stdio: ["pipe", "pipe", "inherit"] });
let text = "";
cat.stdout.setEncoding("utf8").on("data", (part) => { text += part; });
cat.stdin.write("through ");
await once(cat.stdout, "data");
cat.stdin.end("a pipe");
assert.deepEqual(await once(cat, "close"), [0, null]);
assert.equal(text, "through a pipe");
assert.equal(execSync("echo at once; echo unseen >&2").toString(), "at once\\n");
assert.equal(execFileSync("cat", { input: "given" }).toString(), "given");
assert.equal(spawnSync("sh", ["-c", "exit 3"]).status, 3);
const [problem] = await once(spawn("./there-is-no-such-program"), "error");
assert.equal(problem.code, "ENOENT");
const child = fork(new URL("child.cjs", import.meta.url));
child.send("to the child");
assert.deepEqual(await once(child, "message"), ["to the child, and back", undefined]);
child.disconnect();
assert.deepEqual(await once(child, "exit"), [0, null]);
const sleeper = spawn("sleep", ["1000"]);
setTimeout(() => sleeper.kill(), 10);
assert.deepEqual(await once(sleeper, "exit"), [null, "SIGTERM"]);`;

const FORKED = `process.on("message", (text) => process.send(text + ", and back"));`;

describe("child processes", () => {
  it("have their input and output, by each function that begins one", withShell, async (context) => {
    const [outcome] = await runsOf(context, { "main.mjs": PROCESSES, "child.cjs": FORKED });
    assert.deepEqual([outcome.ending, outcome.detail], ["finished", ""]);
    assert.deepEqual(outcome.real, [
      "child_process.execFileSync at main.mjs:16:14", "child_process.execSync at main.mjs:15:14",
      "child_process.fork at main.mjs:20:15", "child_process.spawn at main.mjs:18:30",
      "child_process.spawn at main.mjs:25:17", "child_process.spawn at main.mjs:5:36",
      "child_process.spawn at main.mjs:7:13", "child_process.spawnSync at main.mjs:17:14",
    ]);
  });

  it("print nothing into the recorder's own output", withShell, async (context) => {
    const main = programOf(context, { "main.mjs": `import { execSync, spawn } from "node:child_process";
execSync("echo to the output", { stdio: "inherit" });
execSync("echo to the error >&2; cat", { stdio: ["inherit", 1, 2] });
spawn("echo", ["by a pipe"], { stdio: ["inherit", process.stdout, "inherit"] });` });
    const { status, stdout, stderr } = await commandThere(["--program", main, "--seeds", "1..2", "--format", "json"]);
    assert.equal(status, 0, stderr);
    const { runs, failed, real } = JSON.parse(stdout);
    assert.deepEqual([runs, failed, real.runs, real.used.listed.length], [2, 0, 2, 3]);
    assert.equal(stderr, "to the output\nto the error\nby a pipe\n");
  });

  it("are gone when the run is over, also those that a thread has left amid a call", onLinux, async (context) => {
    const folder = temporaryFolder(context);
    const files = {
      "main.mjs": `import { Worker } from "node:worker_threads"; import { spawn } from "node:child_process";
import { writeFileSync } from "node:fs";
const begin = () => { const child = spawn("sleep", ["1000"]); child.on("exit", () => { throw new Error("seen"); });
  writeFileSync(\`${folder}/\${child.pid}\`, ""); return child; };
begin(); begin().unref();
const words = new Int32Array(new SharedArrayBuffer(4));
const worker = new Worker(\`const { spawn } = require("child_process");
  const { workerData } = require("worker_threads");
  require("fs").writeFileSync("${folder}/" + spawn("sleep", ["1000"]).pid, ""); Atomics.store(workerData, 0, 1);
  Atomics.notify(workerData, 0); Atomics.wait(workerData, 0, 1);\`, { eval: true, workerData: words });
Atomics.wait(words, 0, 0);
process.exit(0);`,
    };
    areFinished(await runsOf(context, files, { seeds: seedsTo(4) }));
    // A run that has noted no lines of code is made once more, and there may be a pilot.
    const pids = readdirSync(folder).map(Number);
    assert.ok(pids.length >= 12 && pids.length % 3 === 0, `${pids.length} processes`);
    // A process that nobody has waited for is a zombie: it runs no more.
    const there = pids.map((pid) => `/proc/${pid}/status`).filter((file) => existsSync(file));
    assert.deepEqual(there.filter((file) => !/^State:\tZ/m.test(readFileSync(file, "utf8"))), []);
  });
});

/** A port that each run listens at, and never closes. */
const PORT = 20_000 + (process.pid % 20_000);

describe("sockets", () => {
  it("lead from a thread to itself", async (context) => {
    const outcomes = await runsOf(context, { "main.mjs": ONE_THREAD }, { seeds: seedsTo(3) });
    areFinished(outcomes);
    assert.deepEqual(outcomes[0].real,
      ["fetch at main.mjs:5:27", "http.createServer at main.mjs:2:21", "http.get at main.mjs:6:34"]);
  });

  it("lead from thread to thread", async (context) => {
    areFinished(await runsOf(context, TWO_THREADS, { seeds: seedsTo(4) }));
  });

  it("are of each kind: tcp, datagrams, names", async (context) => {
    areFinished(await runsOf(context, { "main.mjs": `import net from "node:net"; import dgram from "node:dgram";
import dns from "node:dns/promises"; import assert from "node:assert/strict"; import { once } from "node:events";
const server = net.createServer((socket) => socket.pipe(socket)).listen(0, "127.0.0.1");
await once(server, "listening");
const socket = net.connect(server.address().port, "127.0.0.1");
socket.end("to and fro");
assert.equal((await socket.setEncoding("utf8").toArray()).join(""), "to and fro");
server.close();
const datagrams = dgram.createSocket("udp4").bind(0, "127.0.0.1");
await once(datagrams, "listening");
datagrams.send("to myself", datagrams.address().port, "127.0.0.1");
assert.equal(String((await once(datagrams, "message"))[0]), "to myself");
datagrams.close();
assert.match((await dns.lookup("localhost")).address, /^(127|::1)/);` }));
  });

  it("are closed when their thread ends, by itself or by another one, and others see it", async (context) => {
    areFinished(await runsOf(context, CLOSED, { seeds: seedsTo(4) }));
  });

  it("are closed when the run is over", async (context) => {
    areFinished(await runsOf(context, { "main.mjs": `import net from "node:net"; import { once } from "node:events";
const server = net.createServer().listen(${PORT}, "127.0.0.1");
await once(server, "listening");
server.unref();` }, { seeds: seedsTo(5) }));
  });
});

/** A socket on which nothing comes for 10 minutes. */
const IDLE = `import net from "node:net"; import assert from "node:assert/strict";
const server = net.createServer((socket) => socket.setTimeout(600_000, () => {
  assert.ok(performance.now() >= 600_000); socket.end("bye"); server.close(); }));
server.listen(0, "127.0.0.1", () => net.connect(server.address().port, "127.0.0.1").resume());`;

/** A server that closes a connection for which no further request comes. */
const KEPT_ALIVE = `import http from "node:http"; import assert from "node:assert/strict";
const server = http.createServer({ keepAliveTimeout: 600_000 }, (asked, answer) => answer.end("hello"));
server.on("connection", (socket) => socket.on("close", () => {
  assert.ok(performance.now() >= 600_000); process.exit(0); }));
server.listen(0, "127.0.0.1", () => http.get({ host: "127.0.0.1", port: server.address().port,
  agent: new http.Agent({ keepAlive: true }) }, (answer) => answer.resume()));`;

describe("sockets' timers", () => {
  it("go by the run's clock", async (context) => {
    for (const main of [IDLE, KEPT_ALIVE]) {
      areFinished(await runsOf(context, { "main.mjs": main }, { seeds: seedsTo(3) }));
    }
  });
});

describe("kept threads", () => {
  it("give right results for 50 seeds in a row", async (context) => {
    const outcomes = await runsOf(context, { "main.mjs": `import { Worker } from "node:worker_threads";
import assert from "node:assert/strict";
const words = new Int32Array(new SharedArrayBuffer(4));
const worker = new Worker(new URL("worker.mjs", import.meta.url), { workerData: words });
Atomics.wait(words, 0, 0);
assert.equal(Atomics.load(words, 0), 42);
await worker.terminate();`,
      "worker.mjs": `import { spawn } from "node:child_process"; import { workerData } from "node:worker_threads";
const cat = spawn("cat");
cat.stdout.on("data", (text) => { Atomics.store(workerData, 0, Number(text)); Atomics.notify(workerData, 0); });
cat.stdin.write("42");` }, { seeds: seedsTo(50) });
    areFinished(outcomes);
    assert.equal(outcomes.length, 50);
  });
});

describe("that an answer comes", () => {
  it("is a move, which the seed puts before and behind those of others", async (context) => {
    const outcomes = await runsOf(context, RACE, { seeds: seedsTo(40) });
    areFinished(outcomes);
    const seen = new Set(outcomes.map(({ bytes }) => Number.parseInt(bytes[0].slice(8, 10), 16)));
    assert.ok(seen.has(0) && [1, 2, 3].some((count) => seen.has(count)), [...seen].join());
  });

  it("is waited for though its thread has looked in vain before", async (context) => {
    const worker = RACE["worker.mjs"].replace("exit 0", "sleep 0.2");
    areFinished(await runsOf(context, { ...RACE, "worker.mjs": worker }, { seeds: seedsTo(8) }));
  });

  it("takes no time of the run, and to look for it is no move", async (context) => {
    const program = (opens) => ({ "main.mjs": `import net from "node:net"; import { once } from "node:events";
const words = new Int32Array(new SharedArrayBuffer(4));
const server = net.createServer();
if (${opens}) await once(server.listen(0, "127.0.0.1"), "listening");
const begun = performance.now();
for (let at = 0; at < 3; at += 1) await new Promise((done) => setTimeout(done, 100));
Atomics.store(words, 0, Math.round((performance.now() - begun) * 100));
const { Worker } = await import("node:worker_threads");
new Worker("", { eval: true, workerData: words });
server.close();` });
    const [with_] = await runsOf(context, program(true), { options: { timeouts: 0 } });
    const [without] = await runsOf(context, program(false), { options: { timeouts: 0 } });
    const timeOf = ({ bytes }) => Buffer.from(bytes[0], "hex").readInt32LE();
    areFinished([with_, without]);
    assert.equal(timeOf(with_), timeOf(without));
  });
});

describe("a program to which nothing comes", () => {
  it("is stuck though a socket is open", async (context) => {
    const [outcome] = await runsOf(context, { "main.mjs": LISTENS });
    assert.deepEqual([outcome.ending, outcome.detail], ["stuck",
      "agent 0 has nothing to do, and is kept alive by a listening socket (nothing came for 0.5 s)"]);
  });

  it("is in a deadlock though a socket is open", async (context) => {
    const [outcome] = await runsOf(context, {
      "main.mjs": `import { Worker } from "node:worker_threads";
const words = new Int32Array(new SharedArrayBuffer(4));
new Worker(new URL("worker.mjs", import.meta.url), { workerData: words });
Atomics.wait(words, 0, 0);`, "worker.mjs": LISTENS });
    assert.equal(outcome.ending, "deadlock");
    const [idle, waits] = outcome.detail.split("\n");
    assert.equal(idle, "agent 1 (worker.mjs, started at main.mjs:3:1) has nothing to do, and is kept alive by "
      + "a listening socket (nothing came for 0.5 s)");
    assert.match(waits, /^agent 0 waits at byte 0 of block 0/);
  });

  it("is waited for longer if a child process runs", async (context) => {
    areFinished(await runsOf(context, { "main.mjs": `import { exec } from "node:child_process"; exec("sleep 1.5");` }));
  });

  it("has its time pass no faster than it does", async (context) => {
    areFinished(await runsOf(context, { "main.mjs": `import { exec } from "node:child_process";
let ticks = 0;
const timer = setInterval(() => { ticks += 1; }, 100);
exec("sleep 0.5", () => { clearInterval(timer); if (ticks > 20) throw new Error("ticks: " + ticks); });` },
    { seeds: [1, 2, 3] }));
  });
});

/**
 * A program that gets the next number with each run, and fails with one of them.
 * @param {import("node:test").TestContext} context
 * @param {number} failing how many runs come before
 */
function counting(context, failing) {
  const file = fileIn(temporaryFolder(context), "count", "0");
  return programOf(context, { "main.mjs": `import { execSync } from "node:child_process";
import { Worker } from "node:worker_threads";
const count = Number(execSync("n=$(cat '${file}'); echo $n; echo $((n + 1)) > '${file}'"));
const words = new Int32Array(new SharedArrayBuffer(4));
new Worker("", { eval: true, workerData: words });
Atomics.store(words, 0, count);
if (count === ${failing}) throw new Error("it fails");
Atomics.add(words, 0, 1);` });
}

describe("a run that can't be repeated", () => {
  it("is a finding, which says so", withShell, async (context) => {
    const module = pathToFileURL(counting(context, 1)).href;
    // Pilots would be further runs.
    const options = { ...defaultsOf("record"), program: true, everywhere: true, seconds: 20, module };
    const [first, second] = await jobOutcomes(options, [1, 2]);
    assert.deepEqual([first.ending, second.ending, second.checked], ["finished", "failed", true]);
    const lines = second.detail.split("\n");
    assert.equal(lines[0], "agent 0 threw Error: it fails");
    assert.equal(lines.at(-1), `made once more in fresh threads, the run went another way: ${OTHERWISE}`);
    // It has noted its lines itself: another run would have others.
    assert.match(second.trace, /"source":"main\.mjs:5:1"/);
  });

  it("is named by the summary, with what was used, and replays say why they differ", withShell, async (context) => {
    const main = counting(context, 0);
    const out = temporaryFolder(context);
    const { status, stdout } = await commandThere(["--program", main, "--seeds", "1..3", "--jobs", "1", "--out", out]);
    assert.equal(status, 1);
    const lines = stdout.split("\n");
    const used = "3 runs used sockets, pipes or child processes, and repeat only as far as their input does";
    const at = lines.indexOf(used);
    assert.deepEqual(lines.slice(at, at + 3), [
      used, "  seed 1 the first, 3 runs: child_process.execSync at main.mjs:3:22",
      `seed 1 was run once more at the end, and ended in another way (threw, then finished): ${OTHERWISE}`,
    ]);
    const notShortened = `not shortened: it couldn't be made again in the same way: ${OTHERWISE}, in 3 runs`;
    assert.ok(lines.includes(notShortened), stdout);
    assert.match(stdout, new RegExp(`to learn its lines of code: ${OTHERWISE}$`, "m"));
    const replayed = await commandThere(["--program", main, "--replay", join(out, "seed-1.program.json")]);
    assert.equal(replayed.status, 3);
    assert.match(replayed.stderr, new RegExp(`^record: the code no longer does the same: .*; or ${OTHERWISE}$`, "m"));
  });

  it("is replayed with its answers", async (context) => {
    const main = programOf(context, { ...RACE, "main.mjs": `${RACE["main.mjs"]}
if (Atomics.load(words, 1) === 2) throw new Error("it fails");` });
    const out = temporaryFolder(context);
    const { status, stdout } = await commandThere(["--program", main, "--seeds", "1..60", "--jobs", "1", "--fail-fast",
      "--no-shorten", "--out", out]);
    assert.equal(status, 1, stdout);
    assert.doesNotMatch(stdout, new RegExp(OTHERWISE));
    const kept = readdirSync(out).find((name) => name.endsWith(".program.json"));
    const replayed = await commandThere(["--program", main, "--replay", join(out, String(kept))]);
    assert.equal(replayed.status, 1, replayed.stderr);
    assert.match(replayed.stdout, /^ {2}agent 0 threw Error: it fails$/m);
  });
});
