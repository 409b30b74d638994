// Scripts of runs with ordinary accesses. Such a script doesn't show them all, so its run may be free of races where
// the recorded run isn't. An empty view, `ordinary_unseen`, says so, and `sabsim judge` refuses the script. Likewise a
// trace that may lack some, and that shows no race, says so in its first line, and `sabsim judge --trace` refuses it.

import assert from "node:assert/strict";
import { readFileSync, writeFileSync } from "node:fs";
import { join } from "node:path";
import { describe, it } from "node:test";
import { fileURLToPath } from "node:url";
import { UNSEEN_LINE } from "../../lib/run/script/trace.mjs";
import { SCRIPT_LIMITS } from "../../script/limits.mjs";
import { RECORD, agentsPath, nodeNow, temporaryFolder } from "../helpers/common.mjs";
import { CHECKING, withSabsim } from "../helpers/needs.mjs";
import { recorded, summaryLines } from "../helpers/recorded.mjs";
import { simulated } from "../helpers/simulate.mjs";

const RING = fileURLToPath(new URL("../../examples/ring-frees-first.agents.mjs", import.meta.url));
const FORMATS = new URL("../../../docs/FORMATS.md", import.meta.url);
const RACING_SEED = 3;
const MOST = SCRIPT_LIMITS.views;
const EMPTY = { name: "ordinary_unseen", kind: "Uint8", block: 0, offset: 0, length: 0 };
const WHY_NOT = `it would have more than ${MOST} views, with ordinary_unseen`;

/** @type {Map<string, ReturnType<typeof recorded>>} the runs that were made, by program and options */
const made = new Map();

/**
 * The outcome of a program of `agents/unseen.mjs`, which the simulator checks, with its trace. Each is made once, and
 * without pilots.
 * @param {string} program
 * @param {object} [options]
 */
async function outcomeOf(program, options = {}) {
  const key = JSON.stringify([program, Object.entries(options).map(([name, value]) => `${name} ${value}`)]);
  const all = { module: agentsPath("unseen"), args: program.split(" "), agents: 2, everywhere: true, trace: true };
  if (!made.has(key)) made.set(key, recorded({ ...all, ...options }));
  const [outcome] = await made.get(key);
  return outcome;
}

const viewsOf = (script) => JSON.parse(script).views;
const namesOf = ({ script }) => viewsOf(script).map(({ name }) => name);

describe("a script of a run with ordinary accesses", () => {
  it("says so by an empty view: the ring whose kept scripts show no race", (context) => {
    const out = join(temporaryFolder(context), "out");
    const words = [RECORD, RING, "--seeds", `${RACING_SEED}`, "--out", out, ...CHECKING];
    const { status, stdout } = nodeNow(words);
    assert.equal(status, 1, stdout);
    for (const ending of ["json", "original.json"]) {
      const views = viewsOf(readFileSync(join(out, `seed-${RACING_SEED}.${ending}`), "utf8"));
      assert.deepEqual(views.at(-1), EMPTY, ending);
      assert.equal(views.filter(({ name }) => name === EMPTY.name).length, 1, ending);
    }
  });

  it("says so where they are reads alone, which nothing else of it shows", async () => {
    const outcome = await outcomeOf("reads");
    assert.deepEqual([outcome.ending, outcome.ordinary, outcome.races.length], ["race", 1, 1]);
    assert.deepEqual(viewsOf(outcome.script), [
      { name: "Int32", kind: "Int32", block: 0, offset: 0, length: 64 }, EMPTY,
    ]);
  });

  it("says so where reads aren't watched, whatever the agents do", async () => {
    for (const ordinary of ["store", "refuse"]) {
      const outcome = await outcomeOf("atomics", { ordinary });
      assert.deepEqual([outcome.ending, namesOf(outcome)], ["finished", ["Int32", EMPTY.name]], ordinary);
    }
  });

  it("says so where code was there before the recorder, whose reads it doesn't see", (context) => {
    const folder = temporaryFolder(context);
    writeFileSync(join(folder, "before.cjs"), "");
    writeFileSync(join(folder, "agents.mjs"), `
      export const setup = { agents: 1, buffers: [4] };
      export default ({ buffers }) => { Atomics.wait(new Int32Array(buffers[0]), 0, 0); };
    `);
    const options = ["--agents", "1", "--seeds", "1", "--out", "out", "--no-shorten", "--check", "0"];
    const recording = [RECORD, "agents.mjs", ...options];
    for (const [nodeWords, names] of [[[], ["Int32"]], [["--require", "./before.cjs"], ["Int32", EMPTY.name]]]) {
      const words = [...nodeWords, ...recording];
      const { status, stderr } = nodeNow(words, { cwd: folder });
      assert.equal(status, 1, stderr);
      assert.deepEqual(namesOf({ script: readFileSync(join(folder, "out/seed-1.json"), "utf8") }), names);
    }
  });

  it("says nothing where all accesses are by Atomics and were watched, also where init fills the buffers", async () => {
    assert.deepEqual(namesOf(await outcomeOf("atomics")), ["Int32"]);
    const filled = await outcomeOf("atomics", { init: ([buffer]) => new Uint8Array(buffer).fill(1, 0, 4) });
    assert.deepEqual([filled.ending, namesOf(filled)], ["finished", ["init_Int32", "Int32"]]);
  });
});

describe("a trace of a run", () => {
  /** Whether the trace of a program says that it may lack accesses, and the rest of it. */
  async function saysUnseen(program, options = {}) {
    const { trace } = await outcomeOf(program, options);
    assert.ok(trace.endsWith("}\n") && !trace.slice(1).includes(UNSEEN_LINE.trim()));
    return trace.startsWith(UNSEEN_LINE);
  }

  it("says so where reads aren't watched, whatever the agents do", async () => {
    for (const ordinary of ["store", "refuse"]) {
      for (const program of ["atomics", "reads"]) assert.equal(await saysUnseen(program, { ordinary }), true, ordinary);
    }
  });

  it("says so in the words that docs/FORMATS.md has", () => {
    assert.ok(readFileSync(FORMATS, "utf8").includes(`\n    ${UNSEEN_LINE}`));
  });

  it("says nothing where all accesses were watched: it has them", async () => {
    for (const program of ["atomics", "reads"]) assert.equal(await saysUnseen(program), false, program);
  });

  it("says so where code was there before the recorder, but not if it shows a race", (context) => {
    const folder = temporaryFolder(context);
    writeFileSync(join(folder, "before.cjs"), "");
    writeFileSync(join(folder, "agents.mjs"), `
      export const setup = { agents: 2, buffers: [8] };
      export default ({ buffers: [buffer], agent, args: [way] }) => {
        const words = new Int32Array(buffer);
        if (way === "races") words[1] = agent + 1;
        Atomics.wait(words, 0, 0);
      };
    `);
    for (const [way, isMarked] of [["waits", true], ["races", false]]) {
      const recording = [RECORD, "agents.mjs", "--agents", "2", "--everywhere", "--seeds", "1", "--out", way];
      const words = ["--require", "./before.cjs", ...recording, "--no-shorten", "--check", "0", "--", way];
      const { status, stderr } = nodeNow(words, { cwd: folder });
      assert.equal(status, 1, stderr);
      const trace = readFileSync(join(folder, way, "seed-1.trace.jsonl"), "utf8");
      assert.equal(trace.startsWith(UNSEEN_LINE), isMarked, way);
    }
  });
});

describe("a script that is full of views", () => {
  it("has room for as many as there can be where nothing is unseen", async () => {
    const full = await outcomeOf(`views ${MOST}`);
    assert.deepEqual([full.ending, viewsOf(full.script).length], ["finished", MOST]);
  });

  it("has room for the empty one beside all others but one", async () => {
    const { ending, script } = await outcomeOf(`viewsAndRead ${MOST - 1}`);
    assert.deepEqual([ending, viewsOf(script).length, viewsOf(script).at(-1)], ["finished", MOST, EMPTY]);
  });

  for (const [program, options] of [["viewsAndRead", {}], ["views", { ordinary: "store" }]]) {
    it(`isn't made where the empty one doesn't fit, and the summary says so: ${program}`, async () => {
      const outcome = await outcomeOf(`${program} ${MOST}`, options);
      const { ending, script, report, scriptHolds, noScript } = outcome;
      assert.deepEqual([ending, script, report, scriptHolds], ["finished", undefined, undefined, undefined]);
      assert.equal(noScript, WHY_NOT);
      const lines = summaryLines([outcome], { checkedBy: "module 1", ...options });
      assert.ok(lines.includes(`1 run has no script, and wasn't replayed: ${WHY_NOT}`), lines.join("\n"));
    });
  }

  it("goes without names first", async (context) => {
    const module = join(temporaryFolder(context), "agents.mjs");
    const names = Object.fromEntries(Array.from({ length: MOST }, (_, at) => [`word${at}`, at]));
    writeFileSync(module, `
      export const setup = { agents: 1, buffers: [${4 * MOST}], names: ${JSON.stringify(names)} };
      export default ({ buffers, args: [reads] }) => {
        const words = new Int32Array(buffers[0]);
        Atomics.load(words, 0);
        if (reads === "reads") words.at(1);
      };
    `);
    const both = [[], ["reads"]].map((args) => recorded({ module, args, agents: 1 }));
    const [[named], [unnamed]] = await Promise.all(both);
    assert.deepEqual(namesOf(named), Object.keys(names));
    assert.deepEqual(namesOf(unnamed), ["Int32", EMPTY.name]);
  });
});

describe("sabsim takes such a script", () => {
  it("for a replay: the report is what the code saw, and no report has the empty view", async () => {
    const { script, report } = await outcomeOf("reads");
    assert.deepEqual(simulated(["replay"], script), { status: 0, output: report, errors: "" });
    const { views, ...rest } = JSON.parse(script);
    const without = JSON.stringify({ ...rest, views: views.slice(0, -1) });
    // A picture has room for the longest name of a view, so there it is wider.
    for (const format of ["plain", "explained", "json"]) {
      const words = ["replay", "--format", format];
      assert.deepEqual(simulated(words, script), simulated(words, without), format);
    }
  });

  it("for a check", async () => {
    const { script } = await outcomeOf("reads");
    assert.match(simulated(["check"], script).output, /^ok: 1 block, 2 views, 2 agents, 1 call, 3 moves\n$/);
  });

  it("for a race", withSabsim, async () => {
    const { script } = await outcomeOf("reads");
    assert.equal(simulated(["race", "--share", "lock"], script).status, 0);
  });

  it("not for a verdict, which would be about other accesses than the run's", async () => {
    const programs = [["reads", {}], ["atomics", { ordinary: "store" }], ["atomics", { ordinary: "refuse" }]];
    for (const [program, options] of programs) {
      const { script, trace, races } = await outcomeOf(program, options);
      for (const words of [["judge"], ["judge", "--format", "json"]]) {
        const { status, output, errors } = simulated(words, script);
        assert.deepEqual([status, output], [1, ""]);
        assert.match(errors, /^sabsim: 21 OrdinaryData/);
      }
      const judged = simulated(["judge", "--trace"], trace);
      if (races.length > 0) assert.deepEqual([judged.status, judged.errors], [5, ""]);
      else assert.deepEqual(judged, { status: 1, output: "", errors: "sabsim: 10 BadShape: line 1\n" });
    }
  });
});
