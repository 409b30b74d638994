// Runs of programs that go beyond what a script can have: they have none, sabsim judges their traces, and the summary
// counts them.

import assert from "node:assert/strict";
import { readdirSync, readFileSync } from "node:fs";
import { dirname, join } from "node:path";
import { describe, it } from "node:test";
import { commandThere } from "../helpers/common.mjs";
import { WORKER, mainWith, programOf, runsOf } from "../helpers/whole-programs.mjs";

const BEYOND = "a thread made more than 1000 calls, which no script can have: "
  + "sabsim judges only the trace of such a run";

const MISSED = "it has more than 16,384 messages, the most that can be told apart: unordered accesses may be missed";

/** @param {string} act of the worker, done again and again @param {string} last what main does at the end */
const filesOf = (act, last) => ({
  "main.mjs": `${mainWith(8)}started().on("exit", () => {
  ${last}
});`,
  "worker.mjs": `${WORKER}${act}`,
});

const ADDS = "for (let at = 0; at < 1_200; at += 1) Atomics.add(words, 0, 1);";
const LOOKS = 'if (Atomics.load(words, 0) !== 1_200) throw new Error("it is " + words[0]);';

describe("more messages than there are places for", () => {
  const sends = (count) => `import { MessageChannel } from "node:worker_threads";
const { port1 } = new MessageChannel();
for (let at = 0; at < ${count}; at += 1) port1.postMessage(at);`;

  it("order more than the program does, so the run says that unordered accesses may be missed", async (context) => {
    const [enough] = await runsOf(context, { "main.mjs": sends(16_384) });
    assert.deepEqual([enough.ending, enough.noScript], ["finished", BEYOND]);
    const [crowded] = await runsOf(context, { "main.mjs": sends(16_385) });
    assert.equal(crowded.ending, "finished");
    assert.equal(crowded.noScript, MISSED);
    assert.equal(crowded.trace?.split("\n")[0], JSON.stringify({ unseen: MISSED }));
    const { stdout } = await command(programOf(context, { "main.mjs": sends(16_385) }), "1..1", "--check", "0");
    assert.ok(stdout.split("\n").includes(`1 run has no script: ${MISSED}`), stdout);
  });
});

describe("more than 1,000 calls of a thread", { concurrency: 3 }, () => {
  it("end no run: it has no script, and its trace is judged", async (context) => {
    const [outcome] = await runsOf(context, filesOf(ADDS, LOOKS));
    assert.deepEqual([outcome.ending, outcome.detail, outcome.script], ["finished", "", undefined]);
    assert.deepEqual([outcome.noScript, outcome.checked], [BEYOND, false]);
    assert.ok(outcome.progress[1].returned >= 1_200);
    assert.equal(outcome.trace?.split("\n").filter((line) => line.includes('"add"')).length, 1_200);
  });

  it("don't hide unordered accesses behind them", async (context) => {
    const files = filesOf(`${ADDS}\nwords[1] = 7;`, "");
    const main = files["main.mjs"].replace('.on("exit"', ";\nwords[1] = 8;\nprocess.once(\"exit\"");
    const [outcome] = await runsOf(context, { ...files, "main.mjs": main });
    assert.deepEqual([outcome.ending, outcome.noScript], ["race", BEYOND]);
    assert.deepEqual(outcome.races.map(({ lines }) => [...lines].sort()), [["main.mjs:5:10", "worker.mjs:3:10"]]);
  });

  it("are a spin if they are the same again and again", async (context) => {
    const spins = `${ADDS}\nwhile (Atomics.load(words, 1) === 0);`;
    const [outcome] = await runsOf(context, filesOf(spins, ""));
    assert.equal(outcome.ending, "limit");
    assert.match(outcome.detail, new RegExp("^agent 1 \\(worker\\.mjs, started at main\\.mjs:3:27\\) spins at "
      + "worker\\.mjs:3:16: it has made 2000 calls, and goes on"));
  });

  it("are no spin while another thread goes on", async (context) => {
    const act = "for (let at = 0; at < 3_000; at += 1) Atomics.add(words, 0, 1);\nAtomics.store(words, 1, 1);";
    const files = filesOf(act, "");
    const main = `${files["main.mjs"]}\nwhile (Atomics.load(words, 1) === 0);`;
    for (const outcome of await runsOf(context, { ...files, "main.mjs": main }, { seeds: [1, 2, 3, 4, 5] })) {
      assert.deepEqual([outcome.ending, outcome.detail, outcome.noScript], ["finished", "", BEYOND]);
    }
  });

  it("are no spin while another thread sleeps for a time", async (context) => {
    const files = filesOf("while (Atomics.load(words, 1) === 0);", "");
    const acts = "for (let at = 0; at < 850; at += 1) Atomics.add(words, 0, 1);\nAtomics.wait(words, 0, 850, 50);";
    const main = `${files["main.mjs"]}\n${acts}\nAtomics.store(words, 1, 1);`;
    const seeds = [1, 2, 3, 4, 5, 6, 7, 8];
    for (const outcome of await runsOf(context, { ...files, "main.mjs": main }, { seeds, options: { timeouts: 0 } })) {
      assert.deepEqual([outcome.ending, outcome.detail], ["finished", ""]);
    }
  });

  it("are a spin if every other thread spins, too", async (context) => {
    const files = filesOf("while (Atomics.load(words, 1) === 0);", "");
    const main = `${files["main.mjs"]}\nwhile (Atomics.load(words, 0) === 0);`;
    for (const outcome of await runsOf(context, { ...files, "main.mjs": main }, { seeds: [1, 2, 3] })) {
      assert.equal(outcome.ending, "limit");
      assert.match(outcome.detail,
        /^agent \d (\(.*\) )?spins at (main\.mjs:7:16|worker\.mjs:2:16): it has made [23]000 calls/);
    }
  });

  it("are counted in the summary", async (context) => {
    const { stdout } = await command(programOf(context, filesOf(ADDS, LOOKS)), "1..3");
    assert.ok(stdout.split("\n").includes(`3 runs have no script, and weren't replayed: ${BEYOND}`), stdout);
    assert.doesNotMatch(stdout, /no run was checked/);
  });
});

const MEMORY = "its threads share more than 3 buffers, one of more than 65536 bytes, or one that grows, and touch more "
  + "pages of 64 bytes than a script and a trace have room for: the recorder alone judges such a run";

const MANY = 40;
const LARGE = 2 ** 24;

/** @param {string} act of the worker @param {string} last what main does at the end */
const sharing = (act, last) => ({
  "main.mjs": `import { Worker } from "node:worker_threads";
const many = Array.from({ length: ${MANY} }, () => new Int32Array(new SharedArrayBuffer(8)));
const large = new Uint8Array(new SharedArrayBuffer(${LARGE}));
large[${LARGE} - 2] = 3;
new Worker(new URL("./worker.mjs", import.meta.url), { workerData: { many, large } });
const woken = Atomics.wait(many[${MANY} - 1], 0, 0);
${last}`,
  "worker.mjs": `import { workerData } from "node:worker_threads";
const { many, large } = workerData;
${act}`,
});

const WAKES = `Atomics.store(many[${MANY} - 1], 0, 1);\nAtomics.notify(many[${MANY} - 1], 0);`;
const WRITES = `for (const words of many) words[1] = 9;\nlarge[${LARGE} - 1] = large[${LARGE} - 2];`;
const FILLS = "large.fill(1, 0, 200_000);";
const FINDS = `if (many[17][1] + large[${LARGE} - 1] !== 12) throw new Error("it isn't there");`;

describe("more buffers than a script can have, and a larger one", { concurrency: 3 }, () => {
  it("end no run: if it touches more than a script has room for, it isn't checked", async (context) => {
    const outcomes = await runsOf(context, sharing(`${FILLS}\n${WRITES}\n${WAKES}`, FINDS), { seeds: [1, 2, 3, 4, 5] });
    for (const { ending, detail, script, noScript, trace, noTrace, checked } of outcomes) {
      assert.deepEqual([ending, detail, script, trace], ["finished", "", undefined, undefined]);
      assert.deepEqual([noScript, noTrace, checked], [MEMORY, MEMORY, false]);
    }
    const [{ state }, ...others] = outcomes;
    assert.deepEqual(others.map(({ state: { hash } }) => hash), others.map(() => state.hash));
  });

  it("show a byte that differs at the end, however far behind it is", async (context) => {
    const act = `large[${LARGE} - 1] = process.argv[2];\n${WAKES}`;
    const files = { ...sharing(act, "") };
    files["main.mjs"] = files["main.mjs"].replace("workerData:", "argv: process.argv.slice(2), workerData:");
    const runsWith = (/** @type {string} */ word) => runsOf(context, files, { args: [word] });
    const [[one], [other]] = await Promise.all([runsWith("1"), runsWith("2")]);
    assert.notEqual(one.state.hash, other.state.hash);
  });

  it("have nothing of an earlier run at the end, also where they have grown", async (context) => {
    const outcomes = await runsOf(context, {
      "main.mjs": `import { Worker } from "node:worker_threads";
const grows = new SharedArrayBuffer(4, { maxByteLength: 16 });
new Worker(new URL("./worker.mjs", import.meta.url), { workerData: grows });`,
      "worker.mjs": `import { workerData as grows } from "node:worker_threads";
const words = new Int32Array(grows);
grows.grow(16);
if (Math.random() < 0.5) {
  words[3] = 5;
  Atomics.load(words, 0);
}`,
    }, { seeds: [1, 2, 3, 4, 5, 6, 7, 8] });
    assert.deepEqual(outcomes.map(({ detail }) => detail), outcomes.map(() => ""));
    const hashes = new Map(outcomes.map(({ progress }) => [progress[1].calls, new Set()]));
    for (const { progress, state } of outcomes) hashes.get(progress[1].calls)?.add(state.hash);
    assert.deepEqual([...hashes.values()].map(({ size }) => size), [1, 1]);
    assert.equal(new Set([...hashes.values()].flatMap((each) => [...each])).size, 2);
  });

  it("don't hide unordered accesses, each by its line and by where its memory was made", async (context) => {
    const outcomes = await runsOf(context, sharing(`${WAKES}\n${WRITES}`, FINDS), { seeds: [1, 2, 3, 4, 5, 6, 7, 8] });
    const raced = outcomes.filter(({ ending }) => ending === "race");
    assert.ok(raced.length > 0 && outcomes.every(({ fails }) => fails));
    const found = new Set(raced.flatMap(({ races }) => races.map(({ lines }) => [...lines].sort().join(" "))));
    assert.deepEqual([...found].sort(), ["main.mjs:7:13 worker.mjs:5:36", "main.mjs:7:24 worker.mjs:6:21"]);
    assert.match(raced[0].detail, /Uint8_b\d+\[16777215\] \(main\.mjs:3\)/);
    assert.match(raced[0].detail, /Int32_b\d+\[1\] \(main\.mjs:2, number 18\)/);
  });

  it("have a deadlock with its place", async (context) => {
    const [{ ending, detail }] = await runsOf(context, sharing("", FINDS));
    assert.equal(ending, "deadlock");
    assert.match(detail,
      /waits at byte 0 of block \d+ \(main\.mjs:2, number 40\): its call 1, \["wait", "Int32_b\d+", 0, 0\], at main/);
  });

  it("are a spin if the same is read again and again", async (context) => {
    const files = sharing("", `for (;;) if (large[${LARGE} - 1] === 9) break;`);
    files["main.mjs"] = files["main.mjs"].replace(/^const woken.*$/m, "");
    // The spin is found by the number of reads, so the limit of time has to be out of the way.
    const [{ ending, detail }] = await runsOf(context, files, { options: { seconds: 3_600 } });
    assert.equal(ending, "limit");
    assert.match(detail, /spins at main\.mjs:7:19: it reads the same bytes again and again/);
  });

  it("are counted in the summary, and a failing run is kept and made again by its row", async (context) => {
    const main = programOf(context, sharing(`${WAKES}\n${WRITES}\n${FILLS}`, FINDS));
    const folder = join(dirname(main), "kept");
    const { status, stdout } = await command(main, "1..8", "--out", folder, "--no-shorten");
    const lines = stdout.split("\n");
    assert.equal(status, 1);
    assert.ok(lines.includes(`8 runs have no script, and weren't replayed: ${MEMORY}`), stdout);
    const [name] = readdirSync(folder);
    assert.deepEqual(readdirSync(folder), [name]);
    assert.match(name, /^seed-\d+\.program\.json$/);
    const seed = JSON.parse(readFileSync(join(folder, name), "utf8")).seed;
    for (const ending of ["json", "trace.jsonl"]) {
      assert.ok(lines.includes(`not kept: seed-${seed}.${ending}: ${MEMORY}`));
    }
    const again = await commandThere(["--replay", join(folder, name)]);
    assert.deepEqual([again.status, again.stdout.split("\n")[1].replace(/:.*/, "")], [1, "1 of 1 run failed"]);
    assert.equal(again.stdout.split("\n")[3], lines[2]);
  });
});

/** @param {string} main @param {string} seeds @param {string[]} more */
const command = (main, seeds, ...more) =>
  commandThere(["--program", main, "--seeds", seeds, ...more]);
