// sabsim judges checked runs too: what the recorder gives it, and what is reported if the two differ.

import assert from "node:assert/strict";
import { readFileSync, readdirSync } from "node:fs";
import { join } from "node:path";
import { describe, it } from "node:test";
import { fileURLToPath } from "node:url";
import { Difference, NoSabsim, record } from "../../recorder.mjs";
import { commandHere } from "../helpers/command-here.mjs";
import { agentsPath, commandNow, recordCase, shellProgram, temporaryFolder } from "../helpers/common.mjs";
import { withShell } from "../helpers/needs.mjs";
import { SIMULATOR_WORDS } from "../helpers/simulate.mjs";
import { MEMBERS, eventsOfTrace, slowJudge } from "../helpers/slow-judge.mjs";
import { plainText, statusOf } from "../helpers/verdict-texts.mjs";

const RING = fileURLToPath(new URL("../../examples/ring-frees-first.agents.mjs", import.meta.url));
const RACING_SEED = 3;

/** Two agents without pilots, so that no worker begins that isn't needed. */
const SMALL = { module: RING, agents: 2, everywhere: true };
const RACE = "data race at byte 1 of block 0: agent 0 writes byte 1 at 2, agent 1 reads byte 1 at 5; " +
  "nothing of agent 0 happens before 5";
/**
 * A program that is sabsim, but has a judge of its own.
 * @param {string} folder
 * @param {string} judge what it does in place of judging, in the shell's words; its input is in the file `given`
 */
function judging(folder, judge) {
  const own = `cat > '${folder}/given'; ${judge}`;
  return shellProgram(folder, `if [ "$1" = judge ]; then ${own}; fi\nexec ${SIMULATOR_WORDS} "$@"`);
}

/** One that says that there is a race, and one that says that there is none. */
const FINDS_ONE = `echo "${RACE}"; exit 5`;
const FINDS_NONE = 'echo "no data race: 12 accesses by 3 agents"; exit 0';

/** Runs the command line to its end. @param {string[]} words */
const run = (...words) => commandNow(words);

const addition = ["--agents", "2", "--everywhere", "--buffers", "12", "--seeds", "7", "--", "addition"];

describe("the judge of checked runs", withShell, () => {
  it("is given the run's trace, and says what the slow judge finds in it", async (context) => {
    const folder = temporaryFolder(context);
    for (const seed of [1, RACING_SEED]) {
      const sabsim = judging(folder,
        `${SIMULATOR_WORDS} judge --trace < '${folder}/given' > '${folder}/said'; exit $?`);
      const { checked, races } = await record({ ...SMALL, seed, sabsim });
      const events = eventsOfTrace(readFileSync(join(folder, "given"), "utf8"));
      const judged = slowJudge(events);
      assert.ok(checked);
      assert.equal(readFileSync(join(folder, "said"), "utf8"), plainText(judged));
      assert.equal(statusOf(judged), races.length > 0 ? 5 : 0);
      assert.equal(races.length > 0, seed === RACING_SEED);
      events.forEach((event, at) => assert.deepEqual([Object.keys(event), event.event], [MEMBERS, at]));
    }
  });

  it("is given the calls of the outcome's trace, without their lines of code", async (context) => {
    const folder = temporaryFolder(context);
    const options = { ...SMALL, seed: 1, trace: true };
    const { trace, ordinary } = await record({ ...options, sabsim: judging(folder, FINDS_NONE) });
    assert.ok(ordinary > 0);
    const without = trace.replaceAll(/"source":"[^"]*"/g, '"source":null');
    assert.equal(readFileSync(join(folder, "given"), "utf8"), without);
  });

  it("is given the script if that has all accesses", async (context) => {
    const folder = temporaryFolder(context);
    const { script } = await recordCase("addition", { sabsim: judging(folder, FINDS_NONE) });
    assert.equal(readFileSync(join(folder, "given"), "utf8"), script);
  });

  it("finds a race, and the recorder found none: both are reported", async (context) => {
    const sabsim = judging(temporaryFolder(context), FINDS_ONE);
    await assert.rejects(recordCase("addition", { sabsim, seed: 9 }), (error) => {
      assert.ok(error instanceof Difference);
      assert.equal(error.message, [
        "seed 9: the recorder and sabsim differ on unordered accesses",
        "  the recorder: no unordered accesses",
        `  sabsim:       ${RACE}`,
      ].join("\n"));
      assert.equal(error.judged, `${RACE}\n`);
      assert.equal(error.outcome.report, error.replayed);
      assert.equal(statusOf(slowJudge(eventsOfTrace(error.outcome.trace))), 0);
      return true;
    });
  });

  it("finds no race, and the recorder found one: both are reported", async (context) => {
    const found = " {2}the recorder: agent 1 reads slots\\[0\\] at ring-frees-first\\.mjs:43:17, .*; agent 0 writes .*";
    const sabsim = judging(temporaryFolder(context), FINDS_NONE);
    for (const races of ["fail", "allow"]) {
      const recording = record({ ...SMALL, seed: RACING_SEED, sabsim, races });
      await assert.rejects(recording, { constructor: Difference, message: new RegExp([
        `^seed ${RACING_SEED}: the recorder and sabsim differ on unordered accesses`, found,
        " {2}sabsim: {7}no data race: 12 accesses by 3 agents$",
      ].join("\n")) });
    }
  });

  it("refuses the trace, or the script's accesses: that is a difference too", async (context) => {
    const sabsim = judging(temporaryFolder(context), "echo 'sabsim: 10 BadShape: line 12' >&2; exit 1");
    const runs = {
      trace: () => record({ ...SMALL, sabsim, seed: 1 }),
      "script's accesses": () => recordCase("addition", { sabsim }),
    };
    for (const [what, run] of Object.entries(runs)) {
      const message = `seed 1: sabsim ended with status 1 on the ${what}: sabsim: 10 BadShape: line 12`;
      await assert.rejects(run(), { constructor: Difference, message });
    }
  });

  it("differs under the command line: status 3, and what both went by is kept", (context) => {
    const folder = temporaryFolder(context);
    const judge = judging(folder, FINDS_ONE);
    const programs = { json: [agentsPath("cases"), ...addition],
      "trace.jsonl": [RING, "--agents", "2", "--everywhere", "--seeds", "7"] };
    for (const [given, [module, ...words]] of Object.entries(programs)) {
      const out = join(folder, given);
      const { status, stdout, stderr } = run(module, "--sabsim", judge, "--out", out, ...words);
      assert.equal(status, 3, stdout);
      assert.match(stderr, /^record: seed 7: the recorder and sabsim differ on unordered accesses$/m);
      const kept = ["json", "report", "sabsim-report", "sabsim-verdict", "trace.jsonl"];
      assert.deepEqual(readdirSync(out).sort(), kept.map((ending) => `seed-7.${ending}`));
      const read = (ending) => readFileSync(join(out, `seed-7.${ending}`), "utf8");
      assert.equal(read("sabsim-verdict"), `${RACE}\n`);
      assert.equal(read(given), readFileSync(join(folder, "given"), "utf8"));
      assert.match(stdout, /^no run was checked$/m);
    }
  });

  it("isn't asked if ordinary accesses aren't watched, since no races are looked for", async (context) => {
    const sabsim = judging(temporaryFolder(context), FINDS_ONE);
    for (const ordinary of ["store", "refuse"]) {
      const words = ["--sabsim", sabsim, "--ordinary", ordinary, ...addition];
      const { status, stdout } = await commandHere([agentsPath("cases"), ...words]);
      assert.equal(status, 0, stdout);
      assert.match(stdout,
        /^every run was replayed by the simulator \(native program\): it agrees with the recorder$/m);
    }
  });

  it("is missing in an older sabsim: this is reported with status 3", async (context) => {
    const folder = temporaryFolder(context);
    const sabsim = judging(folder, "echo \"error: unrecognized subcommand 'judge'\" >&2; exit 2");
    const tooOld = /program can't do judge, so it is older than the recorder: error: unrecognized subcommand 'judge'$/;
    await assert.rejects(recordCase("addition", { sabsim }), { constructor: NoSabsim, message: tooOld });
    const { status, stderr } = await commandHere([agentsPath("cases"), "--sabsim", sabsim, ...addition]);
    assert.equal(status, 3);
    assert.match(stderr.trimEnd(), tooOld);
  });

  it("ends by a signal: that is a difference too", async (context) => {
    const sabsim = judging(temporaryFolder(context), "kill -9 $$");
    const { status, stderr } = await commandHere([agentsPath("cases"), "--sabsim", sabsim, ...addition]);
    assert.equal(status, 3);
    assert.match(stderr, /^record: seed 7: sabsim ended with status null on the script's accesses: /m);
  });

  it("isn't asked of a run that isn't checked", async (context) => {
    const folder = temporaryFolder(context);
    const words = ["--sabsim", judging(folder, FINDS_ONE), "--check", "0", ...addition];
    assert.equal((await commandHere([agentsPath("cases"), ...words])).status, 0);
    assert.ok(!readdirSync(folder).includes("given"));
  });

  it("judges what init left as no access, and of a run whose init throws nothing", async (context) => {
    const folder = temporaryFolder(context);
    const options = { sabsim: judging(folder, `exec ${SIMULATOR_WORDS} "$@" < '${folder}/given'`) };
    const given = () => readFileSync(join(folder, "given"), "utf8");
    const filled = await recordCase("addition", { ...options, init: ([buffer]) => new Uint8Array(buffer).fill(1) });
    assert.deepEqual([filled.ending, eventsOfTrace(given()).length], ["finished", filled.calls]);
    const init = () => {
      throw new Error("no");
    };
    const { ending, checked } = await recordCase("addition", { ...options, init });
    assert.deepEqual([ending, checked, JSON.parse(given()).schedule], ["failed", true, []]);
  });
});
