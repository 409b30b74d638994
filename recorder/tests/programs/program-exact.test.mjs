// Runs that get real answers are made again by their rows. All programs are run in the same threads, one after the
// other.

import assert from "node:assert/strict";
import { rmSync, writeFileSync } from "node:fs";
import { join } from "node:path";
import { after, describe, it } from "node:test";
import { pathToFileURL } from "node:url";
import { REAL_ANSWER } from "../../lib/board/drawn-schedule.mjs";
import { areSame } from "../../lib/run/same.mjs";
import { TIMES_TRIED } from "../../lib/run/words/summary-words.mjs";
import { programDivergenceText } from "../../lib/shorter/differing.mjs";
import { CLOSED, LISTENS, ONE_THREAD, RACE } from "../helpers/real-programs.mjs";
import { temporaryFolder } from "../helpers/common.mjs";
import { programGroup } from "../helpers/groups.mjs";
import { withShell } from "../helpers/needs.mjs";
import { programOf } from "../helpers/whole-programs.mjs";

/** @type {ReturnType<typeof groupWith> | undefined} */
let opened;
after(async () => (await opened)?.close());

/** @param {string} module of the first program */
const groupWith = (module) => programGroup({ module, programOutput: "none" });

/**
 * @param {import("node:test").TestContext} context
 * @param {Record<string, string>} files of a program
 * @returns {Promise<(wanted: object) => Promise<import("../../lib/run/outcome.mjs").One>>} makes a run of it
 */
async function runsBy(context, files) {
  const module = pathToFileURL(programOf(context, files)).href;
  opened ??= programGroup({ module, programOutput: "none" });
  const group = await opened;
  group.enter(module);
  return (wanted) => group.one({ seed: 1, whole: true, wantsActs: true, isSilent: true, ...wanted });
}

/** @param {import("../../lib/run/outcome.mjs").One} first @param {import("../../lib/run/outcome.mjs").One} again */
const isAgain = (first, again) => again.aside.divergence === undefined && areSame(first.outcome, again.outcome)
  && first.outcome.acts === again.outcome.acts;

/**
 * Makes the runs of a program's first seeds, and each once more by its row, a few times until it is the same.
 * @param {import("node:test").TestContext} context
 * @param {Record<string, string>} files
 * @param {number} seeds how many
 */
async function repeated(context, files, seeds) {
  const made = await runsBy(context, files);
  const rows = [];
  for (let seed = 1; seed <= seeds; seed += 1) {
    const first = await made({ seed });
    const { row = [], detail } = first.outcome;
    const wanted = { seed, row, isExact: true };
    let again = await made(wanted);
    for (let time = 1; time < TIMES_TRIED && !isAgain(first, again); time += 1) again = await made(wanted);
    assert.ok(isAgain(first, again), `seed ${seed}: ${detail}; ${again.outcome.detail}\n${row}\n${again.outcome.row}`);
    rows.push(row);
  }
  return rows;
}

/**
 * As `RACE`, but the worker gets only one answer, so that its answers can come in no other order. And it never ends by
 * itself: when a thread does depends on what node has closed, and no row has that.
 */
const ENDS = {
  "main.mjs": `${RACE["main.mjs"].replace('"exit"', '"message"')}
worker.unref();`,
  "worker.mjs": `import { spawn } from "node:child_process";
import { parentPort, workerData } from "node:worker_threads";
spawn("sh", ["-c", "exit 0"], { stdio: "ignore" }).on("exit", () => {
  Atomics.store(workerData, 0, 1);
  parentPort.postMessage("ended");
});
parentPort.on("message", () => {});
parentPort.postMessage("begun");`,
};

/** What is fetched is packed, and zlib's results are tasks beside the answers. */
const PACKED = `import { createServer } from "node:http";
import { createGzip } from "node:zlib";
const server = createServer((request, response) => {
  response.setHeader("content-encoding", "gzip");
  const packing = createGzip();
  packing.pipe(response);
  packing.end("text ".repeat(9_000));
});
await new Promise((done) => server.listen(0, "127.0.0.1", done));
const answer = await fetch(\`http://127.0.0.1:\${server.address().port}/\`);
if ((await answer.text()).length !== 45_000) throw new Error("other bytes");
server.close();
server.closeAllConnections();`;

describe("a run with real answers is the same by its row", () => {
  it("in which threads see that a socket has closed, which is no move", async (context) => {
    await repeated(context, CLOSED, 3);
  });

  it("in which a thread asks itself", async (context) => {
    await repeated(context, { "main.mjs": ONE_THREAD }, 2);
  });

  it("in which bytes of a socket are unpacked", async (context) => {
    await repeated(context, { "main.mjs": PACKED }, 2);
  });

  it("in which nothing comes at last", async (context) => {
    await repeated(context, { "main.mjs": LISTENS }, 2);
  });

  it("in which a process ends while the thread's module is evaluated: that is a move", withShell, async (context) => {
    const rows = await repeated(context, ENDS, 12);
    for (const row of rows) assert.ok(row.includes(REAL_ANSWER + 1), `${row}`);
  });
});

describe("an answer that comes too soon", () => {
  it("is held back until the row has it", withShell, async (context) => {
    const slow = join(temporaryFolder(context), "slow");
    const made = await runsBy(context, {
      "main.mjs": `import { Worker } from "node:worker_threads"; import { execSync } from "node:child_process";
const words = new Int32Array(new SharedArrayBuffer(4));
const worker = new Worker(new URL("worker.mjs", import.meta.url), { workerData: words });
await new Promise((done) => worker.once("message", done));
execSync("sleep 0.1");
for (let at = 0; at < 12; at += 1) Atomics.load(words, 0);
await new Promise((done) => worker.once("exit", done));`,
      "worker.mjs": `import { spawn } from "node:child_process";
import { parentPort, workerData } from "node:worker_threads";
const child = spawn("sh", ["-c", "echo a; [ -e '${slow}' ] && sleep 0.6; echo b >&2"]);
for (const pipe of [child.stdout, child.stderr]) pipe.on("data", () => Atomics.add(workerData, 0, 1));
parentPort.postMessage("begun");` });
    let held = 0;
    for (let seed = 1; seed <= 40 && held < 2; seed += 1) {
      writeFileSync(slow, "");
      const first = await made({ seed });
      const { row = [] } = first.outcome;
      // Main loads before the one, so that both have come then when the run is made again; and between both.
      const between = new RegExp(`^(1,)*(0,(1,)*){6,}${REAL_ANSWER + 1},1,(0,)+${REAL_ANSWER + 1},1,`);
      if (!between.test(row.join())) continue;
      rmSync(slow);
      const again = await made({ seed, row, isExact: true });
      assert.ok(isAgain(first, again), `seed ${seed}: ${again.outcome.detail}\n${row}\n${again.outcome.row}`);
      held += 1;
    }
    assert.ok(held > 0);
  });
});

describe("a run that diverges from its row", () => {
  it("says which answer was wanted, and who could move", async (context) => {
    const made = await runsBy(context, { "main.mjs": LISTENS });
    const { outcome: { row = [] } } = await made({});
    const { aside: { divergence } } = await made({ row: [...row, REAL_ANSWER, 0], isExact: true });
    assert.equal(programDivergenceText(/** @type {any} */ (divergence)),
      `agent 0 got a real answer with draw ${row.length} of the kept run, and now it gets none`);
  });

  it("isn't the same run, though all of its own moves are in the row", async (context) => {
    const made = await runsBy(context, { "main.mjs": ONE_THREAD });
    const first = await made({});
    const { row = [] } = first.outcome;
    const longer = { ...first.outcome, row: [...row, 0] };
    const again = await made({ row: longer.row, isExact: true });
    assert.equal(again.aside.divergence, undefined);
    assert.ok(isAgain(first, again) && !areSame(longer, again.outcome));
  });
});
