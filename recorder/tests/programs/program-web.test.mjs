// Programs for browsers (`--web`): what they print is what Chromium prints, what browsers don't have isn't there, and
// what goes wrong is found with its thread and line.

import assert from "node:assert/strict";
import { readFileSync, readdirSync } from "node:fs";
import { dirname, join } from "node:path";
import { after, before, describe, it, test } from "node:test";
import { pathToFileURL } from "node:url";
import { checkedBy } from "../../lib/check/check.mjs";
import { GRAPH_FLAGS } from "../../lib/program/node/graph-flags.cjs";
import { simulatorAt } from "../../lib/simulator/chosen.mjs";
import { record } from "../../recorder.mjs";
import { assertProgram } from "../../testing.mjs";
import { Browser, withBrowser } from "../helpers/browser.mjs";
import { commandNow, jsonOf, nodeNow, temporaryFolder } from "../helpers/common.mjs";
import { programGroup } from "../helpers/groups.mjs";
import { CHECKER } from "../helpers/needs.mjs";
import { TableRuns } from "../helpers/program-findings.mjs";
import { seedsTo } from "../helpers/recorded.mjs";
import { seedsTried } from "../helpers/seeds-tried.mjs";
import { linesInBrowser } from "../helpers/web-page.mjs";
import { programIn, programOf, runsOf } from "../helpers/whole-programs.mjs";
import { runsInRecorder } from "../programs/order.mjs";
import { PROGRAMS } from "../programs/table.mjs";

const FOLDER = new URL("../programs/web/order/", import.meta.url);
const NAMES = readdirSync(FOLDER).filter((name) => name.endsWith(".mjs")).sort();
const SEEDS = 3;
const MANY_SEEDS = seedsTried(200);

/** @param {string} name of a program @returns {string[]} the lines that Chromium has printed */
const linesOf = (name) => readFileSync(new URL(name.replace(/mjs$/, "lines"), FOLDER), "utf8").split("\n").slice(0, -1);

/** Little programs are written to this folder, one after the other, and run in the same threads. */
const room = temporaryFolder();
/** @type {Awaited<ReturnType<typeof programGroup>>} */
let group;
before(async () => {
  group = await programGroup({ web: true, module: pathToFileURL(join(room, "main.mjs")).href });
});
after(() => group.close());

/**
 * The runs of a program.
 * @param {Record<string, string>} files by their names; the main one is `main.mjs` or `main.js`
 * @param {number} [seeds] how many
 * @param {boolean} [needsTrace] whether each run has its trace, for which it is made twice
 * @returns {Promise<(import("../../lib/run/outcome.mjs").Outcome & import("../../lib/check/check.mjs").Check)[]>}
 */
async function webRuns(files, seeds = 1, needsTrace = false) {
  group.enter(pathToFileURL(programIn(room, files)).href);
  const outcomes = [];
  const wanted = seedsTo(seeds).map((seed) => ({ seed, whole: true, needsTrace, isSilent: true }));
  await group.run(wanted, (outcome, judgement, aside) => {
    outcomes.push(checkedBy(simulatorAt(CHECKER), { outcome, judgement, aside }));
  });
  return outcomes;
}

/** A worker by a URL with its code, which knows no other URL. @param {string} code @returns {string} */
const workerOf = (code) => `new Worker("data:text/javascript,${encodeURIComponent(code)}", { type: "module" })`;

/**
 * What becomes of scripts, in a process in which node's own parser can be had.
 * @param {string[]} scripts
 * @returns {{ text: string, names: string[] }[]}
 */
function asVariables(scripts) {
  const module = new URL("../../lib/program/web/scripts.mjs", import.meta.url).href;
  const code = `import { asVariables } from ${JSON.stringify(module)};
    const all = ${JSON.stringify(scripts)}.map(asVariables);
    console.log(JSON.stringify(all.map(({ text, names }) => ({ text, names: [...names].sort() }))));`;
  return jsonOf(nodeNow(["--no-warnings", ...GRAPH_FLAGS, "--input-type=module", "--eval", code]));
}

describe("programs that browsers run print the same lines", () => {
  /** @type {Promise<Map<string, import("../programs/order.mjs").InRecorder[]>>} */
  let recorded;
  before(() => { recorded = runsInRecorder(NAMES, SEEDS, { folder: FOLDER, options: { web: true } }); });

  for (const name of NAMES) {
    it(`${name} in the recorder`, async () => {
      const runs = (await recorded).get(name) ?? [];
      assert.equal(runs.length, SEEDS);
      for (const { lines, ending, detail } of runs) {
        assert.deepEqual(lines, linesOf(name));
        assert.deepEqual([ending, detail], ["finished", ""]);
      }
    });
  }
});

describe("the lines are those of a browser", () => {
  /** @type {Browser | undefined} */
  let browser;
  before(() => { browser = withBrowser.skip === false ? new Browser() : undefined; });
  after(() => browser?.close());

  for (const name of NAMES) {
    it(name, withBrowser, async () => {
      assert.deepEqual(await linesInBrowser(/** @type {Browser} */ (browser), `order/${name}`), linesOf(name));
    });
  }
});

test(`a right program passes under ${MANY_SEEDS} seeds`, async () => {
  const runs = await TableRuns.open({ web: true });
  try {
    const program = PROGRAMS.find(({ name }) => name === "web/right") ?? assert.fail();
    const outcomes = await runs.runs(program, { last: MANY_SEEDS });
    assert.deepEqual(outcomes.filter(({ ending }) => ending !== "finished"), []);
    assert.equal(outcomes.length, MANY_SEEDS);
  } finally {
    await runs.close();
  }
});

describe("how a run ends", () => {
  it("finished, if nothing can move and the page's module is evaluated, though workers listen", async () => {
    const [{ ending, detail, checked }] = await webRuns({
      "main.mjs": `const worker = ${workerOf("onmessage = () => {};")};
        worker.postMessage(1);
        worker.onmessage = () => {};`,
    });
    assert.deepEqual([ending, detail, checked], ["finished", "", true]);
  });

  it("stuck, if the page's module awaits something for ever", async () => {
    const [{ ending, detail }] = await webRuns({
      "main.mjs": "const worker = new Worker(`w.mjs`);\nawait new Promise(() => {});",
      "w.mjs": "onmessage = () => {};",
    });
    assert.equal(ending, "stuck");
    const idle = "has nothing to do, and is kept alive by";
    assert.deepEqual(detail.split("\n"), [
      `agent 0 ${idle} a top-level await that nothing settles`,
      `agent 1 (w.mjs, started at main.mjs:1:16) ${idle} the Worker made at main.mjs:1:16`,
    ]);
  });

  it("stuck, if nobody releases a lock, with its name and the line of the request", async () => {
    const [{ ending, detail }] = await webRuns({
      "main.mjs": `await navigator.locks.request("a", () => navigator.locks.request("b", () => {
  return navigator.locks.request("a", () => {});
}));`,
    });
    assert.equal(ending, "stuck");
    const kept = "agent 0 has nothing to do, and is kept alive by a top-level await that nothing settles";
    assert.equal(detail, `${kept}; it awaits the lock "a", requested at main.mjs:2:26`);
  });

  it("deadlock, if a worker sleeps for ever, with its name and line", async () => {
    const [{ ending, detail }] = await webRuns({
      "main.mjs": "const worker = new Worker(`w.js`);\nworker.postMessage(new Int32Array(new SharedArrayBuffer(4)));",
      "w.js": "onmessage = ({ data }) => {\n  Atomics.wait(data, 0, 0);\n};",
    });
    assert.equal(ending, "deadlock");
    const waits = /^agent 1 (.*) waits at byte 0 of block 0 \(main\.mjs:2\): .*, at w\.js:2:11$/m;
    assert.equal(waits.exec(detail)?.[1], "(w.js, started at main.mjs:1:16)");
    assert.match(detail, /^agent 0 has nothing to do, and is kept alive by the page$/m);
  });

  it("finished, if the page closes, whatever workers do", async () => {
    const [{ ending, detail }] = await webRuns({
      "main.mjs": `const worker = new Worker("w.js");
        worker.postMessage(new Int32Array(new SharedArrayBuffer(4)));
        worker.onmessage = () => { close(); setTimeout(() => { throw new Error("behind the end"); }); };`,
      "w.js": "onmessage = ({ data }) => {\n  postMessage(1);\n  Atomics.wait(data, 0, 0);\n};",
    }, 3);
    assert.deepEqual([ending, detail], ["finished", ""]);
  });
});

describe("events without a listener that fail the run", () => {
  /** @type {[string, Record<string, string>, RegExp][]} */
  const failing = [
    ["an error of the page", { "main.mjs": "setTimeout(() => { throw new Error(`no`); });" },
      /^agent 0 threw Error: no\n +at .*main\.mjs:1:26/],
    ["a rejection in the page", { "main.mjs": "Promise.reject(new Error(`no`));" },
      /^agent 0 threw \(a rejection that nobody handles\) Error: no\n +at .*main\.mjs:1:16/],
    ["a failing module", { "main.mjs": "await null;\nthrow new Error(`no`);" },
      /^agent 0 threw Error: no\n +at .*main\.mjs:2:7/],
    ["an error of a worker", { "main.mjs": "new Worker(`w.js`);", "w.js": "throw new Error(`no`);" },
      /^agent 1 \(w\.js, started at main\.mjs:1:1\) threw Error: no\n +at .*w\.js:1:7/],
    ["a rejection in a worker", { "main.mjs": "new Worker(`w.js`).onerror = () => {};", "w.js": "Promise.reject(5);" },
      /^agent 1 \(w\.js, started at main\.mjs:1:1\) threw \(a rejection that nobody handles\) 5/],
    ["an error in a blob", { "main.mjs": "new Worker(URL.createObjectURL(new Blob([`\\nthrow Error('no');`])));" },
      /^agent 1 \(a blob: URL, started at main\.mjs:1:1\) threw Error: no\n +at blob:null\/0-0:2:7/],
    ["a script that isn't there", { "main.mjs": "new Worker(`none.js`);" },
      /^agent 1 \(none\.js, started at main\.mjs:1:1\) can't load its script: NetworkError/],
  ];
  for (const [what, files, says] of failing) {
    it(what, async () => {
      const [{ ending, detail, fails }] = await webRuns(files);
      assert.deepEqual([ending, fails], ["failed", true]);
      assert.match(detail, says);
    });
  }

  it("and what somebody listens to, anywhere on the way, doesn't", async () => {
    const throws = "throw new Error(`no`);";
    const listened = [
      `onerror = () => {}; ${throws}`, `onunhandledrejection = () => {}; Promise.reject(1);`,
      `new Worker("w.js").onerror = () => {};`, `onerror = () => {}; new Worker("w.js");`, `new Worker("listens.js");`,
      `new Worker("none.js").onerror = () => {};`,
    ];
    for (const main of listened) {
      const [{ ending, detail }] = await webRuns({
        "main.mjs": main, "w.js": throws, "listens.js": `onerror = () => {}; ${throws}`,
      });
      assert.deepEqual([ending, detail], ["finished", ""], main);
    }
  });
});

describe("tasks of different sources come in either order", () => {
  /** @type {[string, string][]} */
  const programs = [
    ["a timer that is due, and a message", `const { port1, port2 } = new MessageChannel();
      let first;
      port1.onmessage = () => { first ??= "message"; };
      port2.postMessage(1);
      setTimeout(() => { first ??= "timer"; if (first === "timer") throw new Error("the timer is first"); }, 1);
      while (performance.now() < 5) { /* until it is due */ }`],
    ["the event of a rejection, and a message by which it is handled", `const { port1, port2 } = new MessageChannel();
      const rejected = Promise.reject(new Error("in time"));
      port1.onmessage = () => { rejected.catch(() => {}); };
      port2.postMessage(1);`],
    ["a message, and a response", `const { port1, port2 } = new MessageChannel();
      let isThere = false;
      port1.onmessage = () => { isThere = true; };
      port2.postMessage(1);
      await fetch("main.mjs");
      if (isThere) throw new Error("the message is first");`],
    ["a message, and the body of a response that is there", `const { port1, port2 } = new MessageChannel();
      let isThere = false;
      port1.onmessage = () => { isThere = true; };
      const response = await fetch("main.mjs");
      port2.postMessage(1);
      await response.text();
      if (isThere) throw new Error("the message is first");`],
    ["a module that a worker imports, and the end of its URL", `
      const worker = ${workerOf("onmessage = async ({ data }) => import(data)")};
      const url = URL.createObjectURL(new Blob([""], { type: "text/javascript" }));
      worker.postMessage(url);
      URL.revokeObjectURL(url);`],
  ];
  for (const [what, main] of programs) {
    it(what, async () => {
      const outcomes = await webRuns({ "main.mjs": main }, 12);
      const failed = outcomes.filter(({ ending }) => ending === "failed");
      assert.ok(failed.length > 0, "no run has failed");
      assert.ok(failed.length < outcomes.length, "each run has failed");
      const says = /Error: (?:the (?:timer|message) is first|in time|Failed to)/;
      for (const { detail } of failed) assert.match(detail, says);
    });
  }
});

describe("what browsers don't have", () => {
  it("ends the run if it is imported, with the line", async () => {
    const files = { "parts/reads.mjs": "// reads\nimport { readFileSync } from `fs`;".replaceAll("`", '"') };
    const [still] = await webRuns({ ...files, "main.mjs": 'import "./parts/reads.mjs";' });
    assert.deepEqual([still.ending, still.detail],
      ["failed", "agent 0 used node:fs with --web, which isn't simulated, at parts/reads.mjs:2:1"]);
    const [later] = await webRuns({ "main.mjs": "try {\n  await import(`node:fs`);\n} catch {}" });
    assert.deepEqual([later.ending, later.detail],
      ["failed", "agent 0 used node:fs with --web, which isn't simulated, at main.mjs:2:3"]);
  });

  it("isn't there, as in a browser", async () => {
    const [{ ending, detail }] = await webRuns({ "main.mjs": "\nprocess.exit(0);" });
    assert.equal(ending, "failed");
    assert.match(detail, /^agent 0 threw ReferenceError: process is not defined\n +at main\.mjs:2:1$/m);
  });

  it("is named with its line if it isn't simulated", async () => {
    const own = pathToFileURL(join(room, "main.mjs")).href;
    const outcomes = [
      ["\nfetch(`https://example.org/a`);", "fetched https://example.org/a", "2:1"],
      ["fetch(`data:,a`).catch(() => {});", "fetched data:,a", "1:1"],
      ["fetch(new Request(`https://example.org/a`)).catch(() => {});", "fetched https://example.org/a", "1:1"],
      ["fetch(import.meta.url, { method: `POST` });", `fetched ${own} by POST`, "1:1"],
      ["new Worker(`https://example.org/w.js`);", "started a Worker of https://example.org/w.js", "1:1"],
      ["try { new SharedWorker(`w.js`); } catch {}", "called SharedWorker", "1:7"],
    ];
    for (const [main, what, place] of outcomes) {
      const [{ ending, detail }] = await webRuns({ "main.mjs": main });
      assert.deepEqual([ending, detail], ["failed", `agent 0 ${what}, which isn't simulated, at main.mjs:${place}`]);
    }
    const [inWorker] = await webRuns({ "main.mjs": workerOf("\nfetch(`data:,a`).catch(() => {});") });
    assert.match(inWorker.detail, /^agent 1 \(.*\) fetched data:,a, which isn't .*, at .*:2:1$/);
  });

  it("is still there without --web, and what browsers have isn't", async (context) => {
    const [{ ending }] = await runsOf(context, {
      "main.mjs": `import "node:fs";
        if (typeof process !== "object" || typeof Worker !== "undefined") throw new Error();`,
    });
    assert.equal(ending, "finished");
  });
});

test("a page ends a blob: URL of a worker, as the standard has it and Chromium doesn't", async () => {
  const [{ detail }] = await webRuns({
    "main.mjs": `const nextOf = (worker) => new Promise((done) => { worker.onmessage = ({ data }) => done(data); });
      const maker = new Worker("makes.js");
      const fetcher = new Worker("fetches.js");
      await nextOf(fetcher);
      maker.postMessage("");
      const url = await nextOf(maker);
      URL.revokeObjectURL(url);
      fetcher.postMessage(url);
      const got = await nextOf(fetcher);
      if (got !== "TypeError") throw new Error(got);`,
    "makes.js": "onmessage = () => postMessage(URL.createObjectURL(new Blob(['made'])));",
    "fetches.js": `onmessage = async ({ data }) => {
      try { postMessage(await (await fetch(data)).text()); } catch (error) { postMessage(error.name); }
    };
    postMessage("");`,
  });
  assert.equal(detail, "");
});

test("a thread's first run that fetches goes the same way again: node makes no task of its own", async (context) => {
  const main = programOf(context, { "main.mjs": `await (await fetch("main.mjs")).text();
    const words = new Int32Array(new SharedArrayBuffer(4));
    new Worker("w.js").postMessage(words);
    for (let at = 0; at < 50; at += 1) Atomics.add(words, 0, 1);`, "w.js": "onmessage = () => {};" });
  const own = await programGroup({ web: true, module: pathToFileURL(main).href });
  try {
    const wanted = { seed: 1, whole: true, needsTrace: true, isSilent: true };
    await own.run([wanted], ({ detail, noTrace }) => { assert.deepEqual([detail, noTrace], ["", undefined]); });
  } finally {
    await own.close();
  }
});

test("functions that node shares with browsers still work", async () => {
  const [{ detail }] = await webRuns({
    "main.mjs": `const { port1 } = new MessageChannel();
      const [text, { a }, buffer] = await Promise.all([
        new Response("text").text(), new Response('{"a":5}').json(), new Response("ab").arrayBuffer(),
      ]);
      const all = new Uint8Array([...new TextEncoder().encode(text), a, buffer.byteLength]);
      const stream = new ReadableStream({ start(to) { to.enqueue(all); to.close(); } });
      const { value } = await stream.getReader().read();
      if (value.join() !== "116,101,120,116,5,2" || typeof global !== "undefined") throw new Error(value);
      if (atob(btoa("x")) !== "x" || new URL("a", "file:///b/c").href !== "file:///b/a") throw new Error();`,
  });
  assert.equal(detail, "");
});

test("a bare name leads to a package, and each file is a module whatever its name says", async () => {
  const [{ ending, detail }] = await webRuns({
    "main.mjs": `import { word } from "small"; import { other } from "./other.cjs";
      if (word + other !== "ab" || import.meta.dirname !== undefined) throw new Error(word + other);`,
    "other.cjs": "export const other = `b`;",
    "node_modules/small/package.json": `{ "exports": "./index.js" }`,
    "node_modules/small/index.js": "export const word = `a`;",
  });
  assert.deepEqual([ending, detail], ["finished", ""]);
});

test("modules of data: and of JSON, and what import.meta has", async () => {
  const outcomes = await webRuns({
    "main.mjs": `import two from "data:text/javascript,export default 1 ? 2 : 3";
      import own from "./own.json" with { type: "json" };
      const { url, resolve } = import.meta;
      const json = { with: { type: "json" } };
      const nameOf = (promise) => promise.then(() => "never", ({ name }) => name);
      const found = [
        two, own.runs += 1, Object.keys(import.meta), resolve("./none.mjs") === new URL("none.mjs", url).href,
        resolve("https://example.org/a"), (await import("data:application/json,[5]", json)).default,
        (await import("data:application/x-javascript;charset=utf-8,export default typeof require")).default,
        await nameOf(import("./own.json")), await nameOf(import("./main.mjs", json)),
      ].join();
      const expected = "2,1,resolve,url,true,https://example.org/a,5,undefined,TypeError,TypeError";
      if (found !== expected) throw new Error(found);`,
    "own.json": `{ "runs": 0 }`,
  }, 3);
  assert.deepEqual(outcomes.map(({ detail }) => detail), ["", "", ""]);
});

test("each run declares anew what a page's classic script declares", async () => {
  const outcomes = await webRuns({
    "main.js": `var started = typeof started === "undefined" ? 1 : started + 1;
      const { port1, port2 } = new MessageChannel(); class Box {} function helps() { return "helped"; } let left = 2;
      if (started !== 1 || self.helps() !== "helped" || typeof Box !== "function") throw new Error("is declared");
      if (typeof process !== "undefined") throw new Error("the process is there");`,
  }, 3, true);
  // Each run is made twice, and has no trace if it went another way then.
  assert.deepEqual(outcomes.map(({ detail, noTrace }) => [detail, noTrace]), Array(3).fill(["", undefined]));
});

test("a script's declarations become variables, in the same lines", () => {
  const script = [
    "let a = 1, { b, c: [d = 2, ...e], ...f } = g;", "const h = () => { let own; var too; };", "class I {}",
    "(0, a)();", "for (let i of []) { var j; let k; function l() {} }", "if (a) var m;", "function n() { var o; }",
    "label: { const p = 1; }",
  ].join("\n");
  const [{ text, names }, broken] = asVariables([script, "let = = 5;"]);
  assert.deepEqual(names, ["I", "a", "b", "d", "e", "f", "h", "j", "l", "m", "n"]);
  assert.deepEqual(text.split("\n").slice(0, 4), [
    "var a = 1, { b, c: [d = 2, ...e], ...f } = g;", "var   h = () => { let own; var too; };", "var I=class I {};",
    "(0, a)();",
  ]);
  assert.deepEqual(text.split("\n").slice(4), script.split("\n").slice(4));
  assert.deepEqual(broken, { text: "let = = 5;", names: [] });
});

test("a kept run knows that it is one for browsers, and is made again", (context) => {
  const main = programOf(context, {
    "main.mjs": `const worker = new Worker("w.js");
      const words = new Int32Array(new SharedArrayBuffer(8));
      worker.postMessage(words);
      Atomics.store(words, 0, 1);
      Atomics.notify(words, 1);`,
    "w.js": "onmessage = ({ data }) => {\n  if (Atomics.load(data, 0) === 0) Atomics.wait(data, 1, 0);\n};",
  });
  const out = join(dirname(main), "found");
  const words = ["--seeds", "1..50", "--fail-fast", "--no-shorten", "--out", out];
  const { status, stdout } = commandNow(["--program", main, "--web", ...words]);
  assert.equal(status, 1, stdout);
  const [, seed] = /^first failing seed: (\d+), deadlock$/m.exec(stdout) ?? [];
  const kept = join(out, `seed-${seed}.program.json`);
  assert.deepEqual(JSON.parse(readFileSync(kept, "utf8")).options, { web: true });
  const again = commandNow(["--replay", kept]);
  assert.equal(again.status, 1, again.stderr);
  assert.match(again.stdout, /agent 1 \(w\.js, started at main\.mjs:1:16\) waits at byte 4 of block 0/);
});

test("the option goes with programs alone, and the library takes it", async (context) => {
  const program = programOf(context, { "main.mjs": "if (self !== window) throw new Error();" });
  assert.equal((await record({ program, web: true })).ending, "finished");
  assert.equal((await record({ program })).ending, "failed");
  await assertProgram({ program, web: true, seeds: 2 });
  const { status, stderr } = commandNow([program, "--web"]);
  assert.deepEqual([status, stderr], [2, "record: --web needs --program: agents aren't run as in a browser\n"]);
});
