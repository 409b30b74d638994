// What threads of a program keep from run to run: the engine compiles each module once, node's own loader finds the
// builtins of the run, and after many runs the threads are started anew.

import assert from "node:assert/strict";
import { describe, it } from "node:test";
import { fileURLToPath, pathToFileURL } from "node:url";
import { GRAPH_FLAGS } from "../../lib/program/node/graph-flags.cjs";
import { MOST_GROUP_RUNS } from "../../lib/program/program-group.mjs";
import { jsonOf, nodeThere } from "../helpers/common.mjs";
import { programGroup } from "../helpers/groups.mjs";
import { seedsTo } from "../helpers/recorded.mjs";
import { programOf, runsOf } from "../helpers/whole-programs.mjs";

const GRAPHS = fileURLToPath(new URL("../helpers/graph-process.mjs", import.meta.url));

/**
 * What each of three runs in one thread prints, by graphs of modules alone.
 * @param {import("node:test").TestContext} context
 * @param {Record<string, string>} files
 * @returns {Promise<string[][]>}
 */
async function linesOf(context, files) {
  const urls = [pathToFileURL(programOf(context, files)).href];
  const words = ["--no-warnings", ...GRAPH_FLAGS, GRAPHS, JSON.stringify(urls), "3"];
  return jsonOf(await nodeThere(words))[0];
}

describe("a module that each run makes anew", () => {
  it("is compiled once, and what it imports is the run's own", async (context) => {
    // The strings of a template are the same object as long as its code isn't compiled anew.
    const runs = await linesOf(context, {
      "main.mjs": `import { strings } from "./strings.mjs";
        const own = ((all) => all)\`own\`;
        globalThis.own ??= own; globalThis.others ??= strings();
        const { count } = await import("./count.mjs");
        console.log(globalThis.own === own, globalThis.others === strings(), count(), import.meta.left);
        import.meta.left = "left";`,
      "strings.mjs": "export const strings = () => ((all) => all)`text`;",
      "count.mjs": "let counted = 0;\nexport const count = () => (counted += 1);",
    });
    assert.deepEqual(runs, Array(3).fill(["true true 1 undefined"]));
  });

  it("fails with the same stack each time if it can't be compiled", async (context) => {
    const files = {
      "main.mjs": `const deep = async (times) => (times === 0 ? import("./bad.mjs") : deep(times - 1));
        try { await deep(2); } catch ({ stack }) {
          console.log(/SyntaxError/.test(stack), /at deep .*main.mjs:1:\\d+/.test(stack),
            /program-modules/.test(stack));
        }`,
      "bad.mjs": "export const bad = ;",
    };
    const { stdout } = await nodeThere([programOf(context, files)]);
    assert.deepEqual(await linesOf(context, files), Array(3).fill([stdout.trim()]));
  });
});

describe("threads that are kept", () => {
  it("show a module that node's own loader has loaded the builtins of the run", async (context) => {
    const outcomes = await runsOf(context, {
      "main.mjs": `import vm from "node:vm";
        const { USE_MAIN_CONTEXT_DEFAULT_LOADER: importModuleDynamically } = vm.constants;
        const loading = new vm.Script("import('node:worker_threads')", { importModuleDynamically }).runInThisContext();
        if ((await loading).MessageChannel !== MessageChannel) throw new Error("the class is that of another run");`,
    }, { seeds: [1, 2, 3] });
    // Each run is made twice, and has no trace if it went another way then.
    assert.deepEqual(outcomes.map(({ ending, noTrace }) => [ending, noTrace]), Array(3).fill(["finished", undefined]));
  });

  it("count the numbers of async_hooks and of timers anew", async (context) => {
    const outcomes = await runsOf(context, {
      "main.mjs": `import assert from "node:assert/strict"; import { AsyncResource } from "node:async_hooks";
        const interval = setInterval(() => {}, 1).unref();
        const numbers = [new AsyncResource("one").asyncId(), +setTimeout(() => {}, 1), +interval];
        assert.deepEqual(globalThis.numbers ??= numbers, numbers);`,
    }, { seeds: [1, 2, 3] });
    assert.deepEqual(outcomes.map(({ ending, detail }) => `${ending}: ${detail}`), Array(3).fill("finished: "));
  });

  it("are started anew after many runs", async (context) => {
    // The first run in a thread has most moves.
    const main = programOf(context, {
      "main.mjs": `globalThis.runs = (globalThis.runs ?? 0) + 1;
        const rounds = globalThis.runs === 1 ? 9 : globalThis.runs % 7;
        for (let left = rounds; left > 0; left -= 1) await new Promise((done) => setImmediate(done));`,
    });
    // Pilots would be runs of these threads, too.
    const group = await programGroup({ module: pathToFileURL(main).href, everywhere: true });
    context.after(() => group.close());
    const moves = [];
    const seeds = seedsTo(MOST_GROUP_RUNS + 1).map((seed) => ({ seed, whole: false, isSilent: true }));
    await group.run(seeds, (outcome) => void moves.push(outcome.moves));
    assert.equal(moves.length, MOST_GROUP_RUNS + 1);
    assert.equal(new Set(moves).size, 8);
    // A thread that isn't back soon after its run is replaced, as on a busy machine. So a few more may be first runs.
    const first = moves.flatMap((count, at) => (count === Math.max(...moves) ? [at] : []));
    const isSome = first.length < MOST_GROUP_RUNS / 10;
    assert.ok(first.includes(0) && first.includes(MOST_GROUP_RUNS - 1) && isSome, `${first}`);
  });
});
