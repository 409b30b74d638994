// Workers as their parent sees them: their messages, and what they died of.

import assert from "node:assert/strict";
import { writeFileSync } from "node:fs";
import { join } from "node:path";
import { test } from "node:test";
import { pathToFileURL } from "node:url";
import { compileFunction } from "node:vm";
import { firstWorkers } from "../../lib/processes/first-workers.cjs";
import { Thread, beginThreads, begunThread } from "../../lib/processes/thread.mjs";
import { moduleOf, nodeNow, temporaryFolder } from "../helpers/common.mjs";
import { withShell } from "../helpers/needs.mjs";

/**
 * A thread that runs some code, in which `port` is where its messages go.
 * @param {import("node:test").TestContext} context
 * @param {string} code
 * @param {{ ownPort?: boolean }} [options]
 */
function threadOf(context, code, options) {
  const imports = [
    'import { execSync } from "node:child_process";',
    'import { parentPort, workerData } from "node:worker_threads";',
    "const port = workerData.port ?? parentPort;",
  ];
  const path = moduleOf(context, [...imports, code].join("\n"));
  const thread = new Thread(pathToFileURL(path), { number: 7 }, options);
  context.after(() => thread.stop());
  return thread;
}

/** All items that a thread's parent gets until the thread's end. */
async function itemsOf(thread) {
  const items = [];
  for (;;) {
    const item = await thread.next();
    items.push(item);
    if (item.ended !== undefined) return items;
  }
}

for (const ownPort of [false, true]) {
  const by = ownPort ? "by a port of its own" : "by the worker's port";

  test(`messages go to and fro ${by}, and none that was sent before the end is lost`, async (context) => {
    const echo = 'port.once("message", (it) => { port.postMessage([it, workerData.number]); process.exit(3); });';
    const thread = threadOf(context, `port.postMessage("first"); ${echo}`, { ownPort });
    thread.post("there");
    assert.deepEqual(await itemsOf(thread), [
      { message: "first" }, { message: ["there", 7] }, { ended: "it ended by itself, with exit code 3" },
    ]);
    assert.deepEqual(await thread.next(), { ended: "it ended by itself, with exit code 3" });
  });

  test(`a worker's end says what it died of ${by}`, async (context) => {
    const endOf = async (code) => (await itemsOf(threadOf(context, code, { ownPort }))).at(-1).ended;
    assert.equal(await endOf('throw new RangeError("mine");'), "RangeError: mine");
    assert.equal(await endOf('await Promise.reject(new Error("later"));'), "Error: later");
    assert.equal(await endOf("throw undefined;"), "it threw undefined");
    assert.equal(await endOf('throw "words";'), "it threw words");
  });
}

test("no more agents' workers begin than the options say are needed", () => {
  const cases = [[{}, 4], [{ everywhere: true }, 4], [{ agents: 1 }, 1], [{ agents: 2 }, 4], [{ agents: 3 }, 4]];
  cases.push([{ agents: 2, everywhere: true }, 2], [{ agents: 16, everywhere: true }, 4]);
  for (const [known, count] of cases) assert.equal(firstWorkers(known), count, JSON.stringify(known));
});

test("a listener for the end gets the error as text, which is kept", async (context) => {
  const thread = threadOf(context, 'throw new TypeError("mine");');
  const why = new Promise((done) => {
    thread.onEnd = done;
  });
  assert.equal(await why, "TypeError: mine");
  assert.equal(thread.ended, "TypeError: mine");
});

test("a message that other code sends by the worker's port is ignored", async (context) => {
  const code = 'parentPort.postMessage("false"); port.postMessage("true"); process.exit();';
  const [first, second] = await itemsOf(threadOf(context, code, { ownPort: true }));
  assert.deepEqual([first, Object.keys(second)], [{ message: "true" }, ["ended"]]);
});

test("`stop` lets go of a thread that native code holds longer than its limit", withShell, (context) => {
  const folder = temporaryFolder(context);
  const [mark, worker, main] = ["mark", "worker.mjs", "main.mjs"].map((name) => join(folder, name));
  writeFileSync(mark, "");
  writeFileSync(worker, `import { execSync } from "node:child_process";
execSync("echo $$ > '${mark}'; exec sleep 1000");`);
  // The native code is there all the time, until it is killed.
  writeFileSync(main, `import { readFileSync } from "node:fs";
import { setTimeout as sleep } from "node:timers/promises";
import { Thread } from ${JSON.stringify(new URL("../../lib/processes/thread.mjs", import.meta.url).href)};
const thread = new Thread(new URL("worker.mjs", import.meta.url), {}, { ownPort: true });
const sleeper = () => Number.parseInt(readFileSync(${JSON.stringify(mark)}, "utf8"), 10);
while (!(sleeper() > 0)) {
  if (thread.ended !== undefined) throw new Error(thread.ended);
  await sleep(10);
}
const begun = performance.now();
const hasEnded = await thread.stop(100);
console.log(hasEnded, performance.now() - begun >= 95, process.getActiveResourcesInfo().includes("MessagePort"));
process.kill(sleeper());`);
  const { stdout, stderr } = nodeNow([main]);
  assert.deepEqual([stdout, stderr], ["false true false\n", ""]);
});

test("a thread that loops can be stopped, and its end isn't reported", async (context) => {
  const thread = threadOf(context, 'port.postMessage("looping"); for (;;);');
  await thread.next();
  let isReported = false;
  thread.onEnd = () => {
    isReported = true;
  };
  assert.equal(await thread.stop(20_000), true);
  assert.equal(isReported, false);
});

test("each module is compiled before a worker gets it", async (context) => {
  const lib = new URL("../../lib/", import.meta.url);
  const [board, player] = ["board/board.mjs", "agent/player.mjs"].map((path) => new URL(path, lib));
  const thread = begunThread(player);
  context.after(() => thread.stop());
  const posted = [];
  thread.post = (message) => void posted.push(message);
  thread.giveAhead(board);
  thread.give(player);
  const [{ ahead }, { modules }] = posted;
  assert.ok(ahead.length > 10 && modules.length > 10);
  for (const { url, code, compiled } of [...ahead, ...modules]) {
    const options = { filename: url, cachedData: Buffer.from(compiled) };
    const made = compileFunction(code, ["modules", "require", "loaded"], options);
    assert.equal(made.cachedDataRejected, false, url);
  }
});

test("a worker begins without the options of the engine and of the process, which no worker takes", async (context) => {
  const root = pathToFileURL(moduleOf(context, 'import threads from "node:worker_threads";\n'
    + "export function main() { threads.workerData.port.postMessage(process.execArgv); }\n"));
  const words = ["--expose-gc", "--stack-size=900", "--title=any"];
  assert.throws(() => begunThread(root, [...words, "--no-warnings"]), { code: "ERR_WORKER_INVALID_EXEC_ARGV" });
  process.execArgv.push(...words);
  context.after(() => process.execArgv.splice(-words.length));
  for (const unknown of [[], ["--no-warnings"]]) {
    const thread = begunThread(root, [...words, ...unknown]);
    context.after(() => thread.stop());
    thread.give(root);
    assert.deepEqual(await thread.next(), { message: unknown });
  }
  assert.throws(() => begunThread(root, [...words, "--no-such-option"]), { code: "ERR_WORKER_INVALID_EXEC_ARGV" });
});

test("a program's first thread has the stack of a process, and others have a Worker's", async (context) => {
  const root = pathToFileURL(moduleOf(context, `import threads from "node:worker_threads";
export function main() {
  let depth = 0;
  const deeper = () => { depth += 1; deeper(); };
  try { deeper(); } catch { threads.workerData.port.postMessage(depth); }
}
`));
  const { stdout } = nodeNow(["-e", `let depth = 0;
    const deeper = () => { depth += 1; deeper(); };
    try { deeper(); } catch { console.log(depth); }`]);
  beginThreads(root, 2, []);
  const threads = [begunThread(root, undefined, true), begunThread(root), begunThread(root, undefined, true)];
  context.after(() => Promise.all(threads.map((thread) => thread.stop())));
  for (const thread of threads) thread.give(root);
  const [first, other, another] = await Promise.all(threads.map(async (thread) => (await thread.next()).message));
  const inNode = Number(stdout);
  for (const depth of [first, another]) {
    assert.ok(depth > 0.95 * inNode && depth < 1.2 * inNode, `${depth} and ${inNode}`);
  }
  assert.ok(other > 2 * first, `${other} and ${first}`);
});

test("a worker evaluates what is behind its module ahead of its data, and nothing twice", async (context) => {
  const folder = temporaryFolder(context);
  const files = {
    "one.mjs": 'import threads from "node:worker_threads";\nexport const { port } = threads.workerData;\n' +
      'port.postMessage("ahead");\n',
    "root.mjs": 'import threads from "node:worker_threads";\nimport { port } from "./one.mjs";\n' +
      "export function main() { port.postMessage(threads.workerData.number); }\n",
  };
  for (const [name, code] of Object.entries(files)) writeFileSync(join(folder, name), code);
  const [root, other] = ["root.mjs", "one.mjs"].map((name) => pathToFileURL(join(folder, name)));
  beginThreads(root, 1);
  const threads = [begunThread(other), begunThread(root)];
  context.after(() => Promise.all(threads.map((thread) => thread.stop())));
  const [, thread] = threads;
  thread.giveAhead(root);
  assert.deepEqual(await thread.next(), { message: "ahead" });
  thread.give(root, { number: 7 });
  assert.deepEqual(await thread.next(), { message: 7 });
  // Nobody has given this one anything ahead.
  threads[0].give(root, { number: 8 });
  assert.deepEqual([await threads[0].next(), await threads[0].next()], [{ message: "ahead" }, { message: 8 }]);
});
