// The command line, as a user runs it: what it prints, its status, what it writes, and that nothing is left of it.

import assert from "node:assert/strict";
import { spawn } from "node:child_process";
import { randomUUID } from "node:crypto";
import { once } from "node:events";
import { closeSync, mkdirSync, openSync, readFileSync, readdirSync, writeFileSync } from "node:fs";
import { join } from "node:path";
import { test } from "node:test";
import { commandOptionsOf, USAGE } from "../../lib/command/options.mjs";
import { commandHere } from "../helpers/command-here.mjs";
import {
  LIES, RECORD, WITHOUT_SABSIM, agentsIn, agentsPath, commandNow, commandThere, fileIn, processesWith,
  refusedInALine, shellProgram, soon, stayingWith, temporaryFolder,
} from "../helpers/common.mjs";
import { CHECKING, NOWHERE, hasSabsim, onLinux, withDevices, withShell } from "../helpers/needs.mjs";
import { endOf } from "../helpers/programs.mjs";
import { simulated } from "../helpers/simulate.mjs";

/** Which simulator checks the runs of these tests. */
const KIND = hasSabsim ? "(native program)" : "(WebAssembly module), except exact repeats";

/**
 * Runs the command line to its end.
 * @param {string[]} words
 * @param {object} [options] of spawnSync
 */
const run = commandNow;

/** The words for agents of `agents/cases.mjs`, without pilots, which would take twice as many workers. */
const casesOf = (agents, name, ...words) =>
  [agentsPath("cases"), "--agents", `${agents}`, "--buffers", "12", "--everywhere", ...words, "--", name];

/** The same for two agents. */
const cases = (name, ...words) => casesOf(2, name, ...words);

test("if no run fails, the status is 0", () => {
  assert.deepEqual(run(cases("addition", "--seeds", "1..20", ...CHECKING)), {
    status: 0,
    stdout: [
      "20 runs: 20 finished",
      "1 final state: how it ended, and the bytes",
      "  20 runs finished, seed 1 the first: 030000000300000000000000",
      `every run was replayed and judged by the simulator ${KIND}: it agrees with the recorder`,
      // Two agents add three times each.
      "20 runs made 120 calls of Atomics, and no ordinary read or write",
      "",
    ].join("\n"),
    stderr: "",
  });
});

test("if some runs fail, the status is 1, and the first is kept in --out", (context) => {
  const folder = temporaryFolder(context);
  const out = join(folder, "a", "b");
  const { status, stdout, stderr } = run([agentsPath("naive-mutex"), "--seeds", "1..100", "--out", out, ...CHECKING]);
  assert.deepEqual([status, stderr], [1, ""]);
  const [, seed] = /^first failing seed: (\d+), deadlock\n  agent \d waits at byte 4 /m.exec(stdout);
  assert.match(stdout, /^\d+ of 100 runs failed: \d+ deadlock; \d+ finished\n/);
  const first = ["json", "report", "trace.jsonl"];
  // A very slow machine may find no shorter run within the ten seconds that it looks, and says so.
  const isShorter = !/^not shortened: no shorter one was found, .*, stopped after 10 s/m.test(stdout);
  const originals = isShorter ? first.map((ending) => `original.${ending}`) : [];
  const endings = [...first, ...originals, "explained", "svg", "html"];
  const kept = endings.map((ending) => `seed-${seed}.${ending}`);
  assert.ok(stdout.endsWith(`\nkept in ${out}: ${kept.join(", ")}\n`), stdout);
  const script = readFileSync(join(out, `seed-${seed}.json`));
  assert.equal(simulated(["replay"], script).output, readFileSync(join(out, `seed-${seed}.report`), "utf8"));
  for (const format of ["explained", "svg"]) {
    const { output } = simulated(["replay", "--format", format], script);
    assert.equal(output, readFileSync(join(out, `seed-${seed}.${format}`), "utf8"));
  }
  assert.deepEqual(readdirSync(out).sort(), kept.sort());
});

test("the explained report that is kept ends with the agents that wait", async (context) => {
  const out = temporaryFolder(context);
  const alike = ["--agents", "3", "--strategy", "uniform", "--everywhere", "--no-shorten"];
  const words = [agentsPath("naive-mutex"), "--seeds", "93", ...alike, "--out", out, ...CHECKING];
  const { stdout } = await commandHere(words);
  const waiting = [...stdout.matchAll(/^  agent (\d) waits at byte 4 of block 0: its call (\d+), /gm)];
  assert.deepEqual(waiting.map(([, agent, call]) => [agent, call]), [["1", "3"], ["0", "8"]]);
  const lines = readFileSync(join(out, "seed-93.explained"), "utf8").split("\n");
  assert.deepEqual(lines.slice(-6), [
    "90 0 8 wait       wait(Int32, 1, 0) waits at Int32[1] behind agent 1",
    "block 0 000000000000000004000000",
    "agent 0 8 of 9    waits at Int32[1] since 90, in wait(Int32, 1, 0); nobody has notified Int32[1] since",
    "agent 1 3 of 4    waits at Int32[1] since 88, in wait(Int32, 1, 0); nobody has notified Int32[1] since",
    "agent 2 17 of 17",
    "",
  ]);
});

test("nothing is written outside of --out, and without it nothing at all", (context) => {
  const folder = temporaryFolder(context);
  const places = ["here", "home", "temporary"];
  for (const place of places) mkdirSync(join(folder, place));
  const [cwd, HOME, TMPDIR] = places.map((place) => join(folder, place));
  const options = { cwd, env: { PATH: process.env.PATH, HOME, TMPDIR } };
  const { status, stdout } = run(cases("waitsForEver", "--seeds", "1..3", ...CHECKING), options);
  assert.equal(status, 1);
  assert.ok(stdout.endsWith("\nnot kept: the run of seed 1; --out DIR keeps it, with a page that shows it\n"), stdout);
  assert.equal(run(cases("waitsForEver", "--seeds", "1..3", "--out", "kept", ...CHECKING), options).status, 1);
  assert.deepEqual(places.map((place) => readdirSync(join(folder, place))), [["kept"], [], []]);
  assert.deepEqual(readdirSync(folder).sort(), places);
});

test("each wrong option is refused, with one line that names it", () => {
  const wrong = [
    [[], /the agents' module is missing/],
    [["m.mjs", "n.mjs"], /one module/],
    [["m.mjs", "--agents", "0"], /--agents must be a whole number from 1 to 16, but is "0"/],
    [["m.mjs", "--agents", "17"], /--agents/],
    [["m.mjs", "--agents", "2.0"], /--agents/],
    [["m.mjs", "--agents", ""], /--agents/],
    [["m.mjs", "--agents"], /--agents/],
    [["m.mjs", "--buffers", "65537"], /--buffers/],
    [["m.mjs", "--buffers", "4,"], /--buffers/],
    [["m.mjs", "--buffers", "1,1,1,1,1"], /1 to 4 buffers/],
    [["m.mjs", "--no-block", "x"], /--no-block/],
    [["m.mjs", "--seeds", "5..1"], /the last seed is before the first/],
    [["m.mjs", "--seeds", "1..2..3"], /--seeds/],
    [["m.mjs", "--seeds", "a..b"], /--seeds/],
    [["m.mjs", "--seeds", "9007199254740992"], /--seeds/],
    [["m.mjs", "--switch", "0.5"], /^there is no option --switch: use --strategy switch:P$/],
    [["m.mjs", "--bounds", "allow"], /^there is no option --bounds: use --limits$/],
    [["m.mjs", "--until-covered"], /^there is no option --until-covered: for a module of agents --all tries every/],
    [["m.mjs", "--strategy", "random"], /^--strategy must be mixed, uniform, .* or switch:P, .*, but is "random"$/],
    [["m.mjs", "--strategy", "switch:1.1"], /^--strategy must be .*, but is "switch:1.1"$/],
    [["m.mjs", "--strategy", "switch:"], /^--strategy/],
    [["m.mjs", "--strategy", "Mixed"], /^--strategy/],
    [["m.mjs", "--everywhere=no"], /--everywhere/],
    [["m.mjs", "--jobs", "0"], /--jobs/],
    [["m.mjs", "--jobs", "65"], /--jobs/],
    [["m.mjs", "--check", "-1"], /--check/],
    [["m.mjs", "--max-moves", "100001"], /--max-moves/],
    [["m.mjs", "--seconds", "0"], /--seconds/],
    [["m.mjs", "--wrong"], /^there is no option --wrong: --help shows all$/],
    [["m.mjs", "--maxMoves", "7"], /^there is no option --maxMoves: is --max-moves meant\?$/],
    [["m.mjs", "--agent=2"], /^there is no option --agent: is --agents meant\?$/],
    [["m.mjs", "-j", "2"], /^there is no option -j: --help shows all$/],
    [["m.mjs", "--fresh=yes"], /--fresh/],
    [["m.mjs", "--ordinary", "see"], /^--ordinary must be watch, store or refuse, but is "see"$/],
    [["m.mjs", "--ordinary"], /--ordinary/],
    [["m.mjs", "--ordinary", ""], /^--ordinary must be watch, store or refuse, but is ""$/],
    [["m.mjs", "--races", "ignore"], /^--races must be fail or allow, but is "ignore"$/],
    [["m.mjs", "--limits", "Allow"], /^--limits must be fail or allow, but is "Allow"$/],
    [["m.mjs", "--unrecorded", "ignore"], /^--unrecorded must be fail or allow, but is "ignore"$/],
    [["m.mjs", "--clock", "toString"], /^--clock must be run or real, but is "toString"$/],
    [["m.mjs", "--timeouts", "1.01"], /^--timeouts must be a number from 0 to 1, or never, but is "1.01"$/],
    [["m.mjs", "--timeouts", "Never"], /^--timeouts must be a number from 0 to 1, or never, but is "Never"$/],
    [["m.mjs", "--timeouts", "-0"], /--timeouts/],
    [["m.mjs", "--fail-fast=1"], /--fail-fast/],
    [["m.mjs", "--out", ""], /--out/],
  ];
  for (const [words, why] of wrong) {
    assert.throws(() => commandOptionsOf(words), refusedInALine(why, words.join(" ")));
  }
});

test("options that aren't given have their defaults", () => {
  const defaults = {
    first: 1, last: 100, jobs: undefined, maxMoves: 100_000, seconds: 10, fresh: false, args: [], noBlock: undefined,
    strategy: "mixed", out: undefined, sabsim: undefined, checkEvery: 1, ordinary: "watch", races: "fail",
    limits: "fail", clock: "run", unrecorded: "fail", timeouts: 0.05, failFast: false, everywhere: false,
  };
  const given = commandOptionsOf(["m.mjs"]);
  assert.deepEqual(Object.fromEntries(Object.keys(defaults).map((name) => [name, given[name]])), defaults);
  assert.equal(commandOptionsOf(["m.mjs", "--seeds", "8"]).last, 8);
});

test("options of the command line have their values", () => {
  const words = ["--ordinary=store", "--races", "allow", "--limits=allow", "--clock", "real", "--timeouts", "0.25"];
  assert.equal(commandOptionsOf(["m.mjs", "--timeouts", "never"]).timeouts, "never");
  const { ordinary, races, limits, clock, timeouts, failFast } = commandOptionsOf(["m.mjs", ...words, "--fail-fast"]);
  assert.deepEqual([ordinary, races, limits, clock], ["store", "allow", "allow", "real"]);
  assert.deepEqual([timeouts, failFast], [0.25, true]);
  assert.equal(commandOptionsOf(["m.mjs", "--unrecorded=allow"]).unrecorded, "allow");
  const strategyOf = (...more) => commandOptionsOf(["m.mjs", ...more]).strategy;
  assert.equal(strategyOf("--strategy", "partial-order"), "partial-order");
  assert.equal(strategyOf("--strategy", "switch:0.25"), "switch:0.25");
  assert.equal(commandOptionsOf(["m.mjs", "--everywhere"]).everywhere, true);
});

test("help names each option that there is", () => {
  const refused = (word) => {
    try {
      commandOptionsOf(["m.mjs", `${word}=x`]);
      return false;
    } catch ({ message }) {
      return message.startsWith("there is no option");
    }
  };
  const named = [...USAGE.matchAll(/^ {2}(?:-\w, )?(--[a-z-]+)/gm)].map(([, word]) => word);
  assert.deepEqual(named.filter(refused), []);
  const options = [
    "strategy", "everywhere", "ordinary", "races", "limits", "unrecorded", "clock", "timeouts",
    "fail-fast", "out", "jobs", "buffers", "check", "help", "version",
  ];
  for (const option of options) assert.ok(named.includes(`--${option}`), option);
  assert.ok(USAGE.split("\n").every((line) => line.length <= 120));
});

test("a wrong command line is refused with status 2 and one line", async (context) => {
  const folder = temporaryFolder(context);
  const file = fileIn(folder, "file", "");
  const module = agentsPath("cases");
  const unchecked = ["--check", "0"];
  // Fewer workers begin before the command line is refused.
  const few = ["--agents", "1"];
  const wrong = [
    [["--seeds", "1", ...few], /the agents' module is missing/],
    [[`${folder}/none.mjs`, ...few], /there is no file/],
    [[folder, ...few], /there is no file/],
    [[module, "--buffers", "4", ...unchecked], /number of agents is missing/],
    [[module, "--agents", "1", ...unchecked], /buffers' bytes are missing/],
    [[module, "--agents", "1", "--buffers", "4", "--no-block", "1", ...unchecked],
      /--no-block\) names agent 1: there is no such agent, only 0 to 0$/m],
    [[module, "--out", file, ...few], /--out .*file can't be used/],
  ];
  const ran = await Promise.all(wrong.map(([words]) => commandThere(words, { cwd: folder })));
  ran.forEach(({ status, stdout, stderr }, at) => {
    const [words, why] = wrong[at];
    assert.deepEqual([status, stdout], [2, ""], words.join(" "));
    assert.match(stderr, /^record: [^\n]+\n$/, words.join(" "));
    assert.match(stderr, why);
  });
});

test("help is on standard output, with status 0", () => {
  const { status, stdout, stderr } = run(["--help"]);
  assert.deepEqual([status, stderr], [0, ""]);
  assert.match(stdout, /^usage: node recorder\/record\.mjs MODULE /);
});

test("if standard output fails, the status is 3, and standard error says so", withDevices, async (context) => {
  const full = openSync("/dev/full", "w");
  context.after(() => closeSync(full));
  const stdio = ["ignore", full, "pipe"];
  for (const words of [cases("addition", "--seeds", "1..3", "--check", "0"), ["--help"]]) {
    const { status, stderr } = commandNow(words, { stdio });
    assert.equal(status, 3, words.join(" "));
    assert.match(stderr, /^record: standard output can't be written: [^\n]+\n$/);
  }
});

test("if standard output has no reader, the status is 3, and the failing run is kept", async (context) => {
  const out = temporaryFolder(context);
  const words = cases("waitsForEver", "--seeds", "1..3", "--check", "0", "--out", out);
  const child = spawn(process.execPath, [RECORD, ...words], { stdio: ["ignore", "pipe", "pipe"] });
  child.stdout.destroy();
  const { status, stderr } = await endOf(child);
  assert.equal(status, 3);
  assert.match(stderr, /^record: standard output can't be written: [^\n]+\n$/);
  assert.ok(readdirSync(out).includes("seed-1.json"));
});

test("if the chosen native program isn't there, the status is 3; with --check 0 it isn't needed", () => {
  const inEnvironment = { env: WITHOUT_SABSIM };
  const asked = [[["--sabsim", NOWHERE], {}], [[], inEnvironment], [["--check", "7"], inEnvironment]];
  for (const [words, options] of asked) {
    const { status, stdout, stderr } = run(cases("nothing", ...words), options);
    assert.deepEqual([status, stdout, stderr], [3, "", `record: there is no program sabsim at ${NOWHERE}\n`]);
  }
  const unchecked = run(cases("waitsForEver", "--seeds", "1", "--check", "0", "--sabsim", NOWHERE));
  assert.equal(unchecked.status, 1);
  assert.match(unchecked.stdout, /^no run was checked$/m);
});

test("with nothing built every run is checked, and explanation, picture and page are kept", (context) => {
  const out = join(temporaryFolder(context), "out");
  const words = cases("waitsForEver", "--seeds", "3..4", "--jobs", "2", "--out", out);
  const { status, stdout, stderr } = run(words, { env: { ...process.env, SABSIM: "" } });
  assert.deepEqual([status, stderr], [1, ""]);
  const endings = ["explained", "html", "json", "report", "svg", "trace.jsonl"];
  const files = readdirSync(out).filter((name) => !name.includes("original"));
  assert.deepEqual(files.sort(), endings.map((ending) => `seed-3.${ending}`));
  const checked = "every run was replayed and judged by the simulator (WebAssembly module), except exact repeats: "
    + "it agrees with the recorder";
  assert.ok(stdout.split("\n").includes(checked), stdout);
});

test("a picture that sabsim doesn't make is reported", withShell, async (context) => {
  const folder = temporaryFolder(context);
  // It says the same of the run, whatever it was, and makes no picture.
  const half = shellProgram(folder, `
    cat > /dev/null
    if [ "$3" = svg ]; then echo "no pictures" >&2; exit 4; fi
    if [ "$2" = --format ]; then echo explained; else cat '${folder}'/out/*.report; fi`);
  const unchecked = ["--seeds", "1", "--no-shorten", "--out", join(folder, "out")];
  assert.equal((await commandHere(cases("waitsForEver", ...unchecked, "--check", "0"))).status, 1);
  const { status, stdout } = await commandHere(cases("waitsForEver", ...unchecked, "--sabsim", half));
  assert.equal(status, 1, stdout);
  assert.match(stdout,
    /^every run was replayed and judged by the simulator \(native program\): it agrees with the recorder$/m);
  const left = "\nnot kept: seed-1.svg: sabsim ended with status 4: no pictures\n" +
    "not kept: seed-1.html: what sabsim prints about the run is no JSON\n";
  assert.ok(stdout.endsWith(left), stdout);
});

test("a difference stops everything with status 3, and is kept", withShell, (context) => {
  const folder = temporaryFolder(context);
  const out = join(folder, "out");
  const words = cases("addition", "--seeds", "7", "--out", out, "--sabsim", shellProgram(folder, LIES));
  const { status, stderr } = run(words);
  assert.equal(status, 3);
  assert.match(stderr, /^record: seed 7: the code and sabsim differ, in line \d of the report\n {2}the code: .*\n/);
  assert.deepEqual(readdirSync(out).sort(), ["seed-7.json", "seed-7.report", "seed-7.sabsim-report"]);
  assert.equal(readFileSync(join(out, "seed-7.sabsim-report"), "utf8"), "0 0 0 begin\n");
});

test("arguments after -- go to the agents, and what they print goes to standard error at once", async (context) => {
  const printed = run(cases("prints", "--seeds", "3", "--check", "0"));
  assert.equal(printed.status, 0);
  const lines = printed.stderr.trimEnd().split("\n");
  assert.deepEqual(lines.map((line) => Number(line.split(" ")[3])), [0, 1, 2, 3, 4, 5]);
  const agents = agentsIn(temporaryFolder(context), "throw new Error(JSON.stringify([agent, agents, args]));");
  const group = ["--agents", "1", "--buffers", "4", "--seeds", "1", "--check", "0"];
  const words = [...group, "--", "--seeds", "--", "x y"];
  assert.match((await commandHere([agents, ...words])).stdout, /agent 0 threw Error: \[0,1,\["--seeds","--","x y"\]\]/);
});

test("a module's own setup serves, and the command line goes before it", async () => {
  const words = [agentsPath("setup"), "--seeds", "1", "--everywhere", ...CHECKING];
  assert.match((await commandHere(words)).stdout, /: 02000000 \| 0200000001000000$/m);
  const longer = await commandHere([...words, "--buffers", "8,8"]);
  assert.match(longer.stdout, /: 0200000000000000 \| 0200000001000000$/m);
  const three = [...words, "--agents", "3", "--buffers", "4,8,4", "--no-block", "0"];
  assert.match((await commandHere(three)).stdout, /^1 of 1 run failed: 1 deadlock$/m);
  // With a process of its own for the job, which gets what the command line says.
  assert.match(run([...three, "--no-block", "1"]).stdout, /^1 run: 1 finished$/m);
});

test("a module that can't be loaded is refused with status 2", (context) => {
  const folder = temporaryFolder(context);
  writeFileSync(join(folder, "bad.mjs"), "export default 5;\n");
  const { status, stderr } = run([join(folder, "bad.mjs"), "--agents", "1", "--buffers", "4", "--check", "0"]);
  assert.equal(status, 2);
  assert.match(stderr, /^record: .*bad\.mjs can't be loaded: .*no function as its default export/);
});

test("the cause of a worker's death while its module is loaded is reported", async (context) => {
  const folder = temporaryFolder(context);
  const deaths = {
    "Error: too late": 'setTimeout(() => { throw new Error("too late"); }); await new Promise(() => {});',
    "RangeError: at once": 'throw new RangeError("at once");',
    "exit code 5": "process.exit(5);",
  };
  for (const [why, code] of Object.entries(deaths)) {
    const module = fileIn(folder, "dies.mjs", `${code}\nexport default () => {};\n`);
    const { status, stderr } = await commandHere([module, "--agents", "1", "--buffers", "4", "--check", "0"]);
    assert.equal(status, 2, why);
    assert.match(stderr, /^record: .*dies\.mjs can't be loaded: /);
    assert.ok(stderr.includes(why), stderr);
  }
});

// What the recorder is busy with in two processes when it is killed: how many agents do it in each of them, what it has
// printed by then, and what that needs.
const BUSY = {
  "agents that loop": [2, "loops", /(it loops\s+){2}/, onLinux],
  checks: [1, "prints", /(agent \d says \d+\s+){100}/, onLinux],
};

for (const signal of ["SIGINT", "SIGTERM", "SIGKILL"]) {
  for (const [what, [agents, name, printed, needs]] of Object.entries(BUSY)) {
    test(`${signal} amid ${what} leaves no worker and no sabsim behind`, needs, async (context) => {
      const mark = randomUUID();
      context.after(() => processesWith(mark).forEach((id) => process.kill(Number(id), "SIGKILL")));
      const seeds = ["--seeds", "1..1000000", "--check", "1", "--seconds", "3600"];
      const words = casesOf(agents, name, "--jobs", "2", ...seeds, ...CHECKING);
      const env = { ...process.env, RECORDER_TEST: mark };
      const child = spawn(process.execPath, [RECORD, ...words], { env, stdio: ["ignore", "ignore", "pipe"] });
      const ended = once(child, "exit");
      let text = "";
      child.stderr.setEncoding("utf8").on("data", (more) => (text += more));
      assert.ok(await soon(() => printed.test(text)), text);
      assert.ok(processesWith(mark).length >= 3);
      child.kill(signal);
      assert.equal((await ended)[1], signal);
      assert.deepEqual(await stayingWith(mark), []);
    });
  }
}
