// --replay of a kept run of a program: the same run, from the file that names the program and has its row; and what is
// said if the code or the row no longer makes it.

import assert from "node:assert/strict";
import { readFileSync, readdirSync, writeFileSync } from "node:fs";
import { dirname, join } from "node:path";
import { before, test } from "node:test";
import { pathToFileURL } from "node:url";
import { MOST_DRAWS } from "../../lib/board/drawn-schedule.mjs";
import { RunStore } from "../../lib/keeping/run-store.mjs";
import { keepProgram, keptProgram } from "../../lib/keeping/kept-program.mjs";
import { runKindOf } from "../../lib/options/run-kinds.mjs";
import { Refused } from "../../lib/options/refused.mjs";
import { shorten } from "../../lib/shorter/shorten.mjs";
import { explore } from "../../recorder.mjs";
import { commandHere } from "../helpers/command-here.mjs";
import { commandNow, fileIn, temporaryFolder } from "../helpers/common.mjs";
import { firstFailing, programGroup } from "../helpers/groups.mjs";
import { WORKER, mainWith, programIn, programOf } from "../helpers/whole-programs.mjs";

// Main looks at the word when the first message has come. The worker may have stored it or not.
const MAIN = `${mainWith(8)}const worker = started();
worker.once("message", (text) => {
  if (Atomics.load(words, 0) === 0) throw new Error(process.argv[2] + ": " + text + " too soon");
});
`;
const SETS = `${WORKER}await new Promise((done) => setTimeout(done, 5));
parentPort.postMessage("ready");
Atomics.store(words, 0, 7);
`;

/**
 * A program of which a failing run is kept.
 * @param {string} main its path
 * @param {string[]} words
 */
async function kept(main, words) {
  const folder = join(dirname(main), "found");
  const all = ["--program", main, "--seeds", "1..60", "--fail-fast", "--out", folder, ...words];
  const { status, stderr } = await commandHere(all);
  assert.equal(status, 1, stderr);
  const name = readdirSync(folder).find((each) => each.endsWith(".program.json"));
  return { main, folder, file: join(folder, name ?? "none"), name: (name ?? "").replace(".program.json", "") };
}

/**
 * @type {Awaited<ReturnType<typeof kept>>} the program above: tests that look at its kept run leave its files as they
 * were
 */
let ofMain;
const room = temporaryFolder();
before(async () => {
  ofMain = await kept(programIn(room, { "main.mjs": MAIN, "worker.mjs": SETS }), ["--timeouts", "0.2", "--", "mine"]);
});

test("a kept run of a program is made again from its file alone: the same script, report and trace", () => {
  const { main, folder, file, name } = ofMain;
  const seed = Number(name.replace("seed-", ""));
  const { program, args, options, row, script } = keptProgram(readFileSync(file, "utf8"), file);
  assert.deepEqual([program, args, options], [main, ["mine"], { timeouts: 0.2 }]);
  assert.deepEqual([script, row.length > 0], [join(folder, `${name}.json`), true]);
  // In another folder than that of the runs.
  const { status, stdout, stderr } = commandNow(["--replay", join("found", `${name}.program.json`), "--out", "again"],
    { cwd: dirname(main) });
  assert.deepEqual([status, stderr], [1, ""], stderr);
  const [title, failed, , detail] = stdout.split("\n");
  assert.equal(title,
    `replayed found/${name}.program.json: main.mjs, with the clocks and random numbers of seed ${seed}`);
  assert.deepEqual([failed, detail], ["1 of 1 run failed: 1 threw", "  agent 0 threw Error: mine: ready too soon"]);
  assert.match(stdout, /^every run was replayed and judged by the simulator \([\w ]+\): it agrees with the recorder$/m);
  for (const ending of ["json", "report", "trace.jsonl", "explained"]) {
    const again = readFileSync(join(dirname(main), "again", `${name}.replayed.${ending}`), "utf8");
    assert.equal(again, readFileSync(join(folder, `${name}.${ending}`), "utf8"), ending);
  }
  const command = JSON.parse(/<script type="application\/json" id="run">(.*)<\/script>/.exec(
    readFileSync(join(folder, `${name}.html`), "utf8"))[1].replaceAll("\\u003c", "<")).command;
  assert.equal(command.isOfRow, true);
  // In quotes if the folder's name needs them.
  assert.match(command.script, new RegExp(`${name}\\.program\\.json'?$`));
});

test("a run without a script is made again, and options of the command line go before kept ones", async (context) => {
  const { file, folder } = await kept(programOf(context, {
    "main.mjs": `${mainWith(8)}started();
      // With the two threads that is more than the agents that a script can have.
      await Promise.all(Array.from({ length: 15 }, () => Atomics.waitAsync(words, 0, 0).value));
      process.exitCode = 3;`,
    "worker.mjs": `${WORKER}
      for (let woken = 0; woken < 15; woken += Atomics.notify(words, 0)) Atomics.wait(words, 1, 0, 1);`,
  }), ["--no-shorten"]);
  assert.ok(!readdirSync(folder).some((name) => /^seed-\d+\.json$/.test(name)));
  const { status, stdout } = await commandHere(["--replay", file, "--races", "allow"]);
  assert.equal(status, 1);
  assert.match(stdout, /^ {2}agent 0 exited with code 3$/m);
  // It has fewer moves than that.
  const limited = await commandHere(["--replay", file, "--max-moves", "2"]);
  assert.match(limited.stdout, /^1 of 1 run failed: 1 limit met$/m);
});

test("a run that waits by waitAsync is made again, and what differs is named as the thread's", async (context) => {
  const { main, file, folder, name } = await kept(programOf(context, {
    "main.mjs": `${mainWith(8)}started();
      for (let round = 0; round < 2; round += 1) await Atomics.waitAsync(words, 0, 0).value;
      process.exitCode = 3;`,
    "worker.mjs": `${WORKER}
      for (let woken = 0; woken < 2; woken += Atomics.notify(words, 0)) Atomics.wait(words, 1, 0, 1);`,
  }), ["--no-shorten"]);
  const script = readFileSync(join(folder, `${name}.json`), "utf8");
  assert.match(script, /"waitAsync_2_of_0"/);
  const { status, stdout, stderr } = await commandHere(["--replay", file, "--out", join(folder, "again")]);
  assert.deepEqual([status, stderr], [1, ""]);
  assert.match(stdout, /^every run was replayed and judged by the simulator \([\w ]+\): it agrees with the recorder$/m);
  assert.equal(readFileSync(join(folder, "again", `${name}.replayed.json`), "utf8"), script);
  writeFileSync(main, readFileSync(main, "utf8").replace("words, 0, 0", "words, round, 0"));
  assert.match((await commandHere(["--replay", file])).stderr,
    new RegExp(': the script has agent 0\'s call (\\d), \\["wait", "Int32_b0", 0, 0\\] next, '
      + 'and now comes agent 0\'s call \\1, \\["wait", "Int32_b0", 1, 0\\]$', "m"));
});

test("if the code does other things, the first of these is named", async () => {
  const { main, file } = ofMain;
  const files = { main, worker: join(dirname(main), "worker.mjs") };
  const changed = [
    ["main", MAIN.replace("Atomics.load(words, 0)", "Atomics.load(words, 1)"),
      new RegExp(': the script has agent 0\'s call \\d+, \\["load", "Int32_b0", 0\\] next, '
        + 'and now comes agent 0\'s call \\d+, \\["load", "Int32_b0", 1\\]$')],
    ["main", MAIN.replace("if (", "Atomics.add(words, 1, 2);\n if ("),
      new RegExp(': the script has agent 0\'s call \\d+, \\["load", .*\\] next, '
        + 'and now comes agent 0\'s call \\d+, \\["add", "Int32_b0", 1, 2\\]$')],
    ["worker", SETS.replace('parentPort.postMessage("ready");', ""),
      new RegExp(': the script has agent 1\'s call \\d+, \\["notify", .*\\] next, '
        + 'and now comes agent 1\'s call \\d+, \\["store", "Int32_b0", 0, 7\\]$')],
    // It makes no other call, and comes less far.
    ["worker", SETS.replace("setTimeout(done, 5)", 'parentPort.once("message", done)'),
      /: agent \d moved with draw \d+ of the kept run, and now it has nothing to do, or waits$/],
  ];
  for (const [name, text, why] of changed) {
    const before = readFileSync(files[name], "utf8");
    assert.notEqual(text, before);
    writeFileSync(files[name], text);
    const { status, stdout, stderr } = await commandHere(["--replay", file]);
    writeFileSync(files[name], before);
    assert.deepEqual([status, stdout], [3, ""]);
    assert.match(stderr.trimEnd(), new RegExp(`^record: the code no longer does the same${why.source}`));
  }
});

test("an edited row makes another run of the program, or it is said which draw it can't make", async () => {
  const { main, file } = ofMain;
  const all = JSON.parse(readFileSync(file, "utf8"));
  /** @param {number[][]} row */
  const replayedBy = (row) => {
    const path = fileIn(dirname(file), "edited.program.json", JSON.stringify({ ...all, row }));
    return commandHere(["--replay", path]);
  };
  for await (const { ending, row } of explore({ program: main, args: ["mine"], seeds: "1..60", timeouts: 0.2 })) {
    if (ending !== "finished") continue;
    const { status, stdout } = await replayedBy(row.map((agent) => [agent, 1]));
    assert.equal(status, 0, stdout);
    assert.match(stdout, /^1 run: 1 finished$/m);
    break;
  }
  const { status, stderr } = await replayedBy([[0, 50], [1, 1]]);
  assert.equal(status, 3);
  assert.match(stderr, new RegExp("^record: the code no longer does the same: agent 0 moved with draw \\d+ of the kept "
    + "run, and now it has nothing to do, or waits; agent 1 could move\\n$"));
});

test("a file that is no kept run of a program is refused, and so is a program that isn't there", (context) => {
  const folder = temporaryFolder(context);
  const file = join(folder, "seed-1.program.json");
  const right = { program: "main.mjs", args: [], seed: 1, options: {}, row: [[0, 1]] };
  const wrong = [
    ["{", /: .*JSON/], ["[]", /: it names no program; if it is a script of agents, name their module$/],
    [{ ...right, program: 5 }, /it names no program/], [{ ...right, args: [1] }, /its args must be words$/],
    [{ ...right, seed: -1 }, /its seed must be a whole number$/],
    [{ ...right, options: [] }, /its options must be an object$/],
    [{ ...right, options: { agents: 2, faster: true } }, /there is no option faster of a run$/],
    [{ ...right, row: [[32, 1]] }, /its row must have pairs of a thread and a number of draws$/],
    [{ ...right, row: [[0, 0]] }, /its row must have pairs/], [{ ...right, row: undefined }, /its row must have pairs/],
    [{ ...right, row: [[0, 100_000]] }, /its row has 100000 draws, and there can be 50001$/],
  ];
  for (const [given, why] of wrong) {
    const text = typeof given === "string" ? given : JSON.stringify(given);
    assert.throws(() => keptProgram(text, file), (error) => error instanceof Refused && why.test(error.message));
  }
  // The numbers from 16 on are those of agents to which real answers come.
  assert.deepEqual(keptProgram(JSON.stringify({ ...right, row: [[31, 1], [0, 2]] }), file).row, [31, 0, 0]);
  // An earlier version called the option `bounds`.
  const before = keptProgram(JSON.stringify({ ...right, options: { bounds: "allow" } }), file);
  assert.deepEqual(before.options, { limits: "allow" });
  const { script } = keptProgram(JSON.stringify({ ...right, script: { file: "seed-1.json", row: "another" } }), file);
  assert.equal(script, undefined);
  writeFileSync(file, JSON.stringify(right));
  assert.deepEqual(commandNow(["--replay", file]), {
    status: 2, stdout: "",
    stderr: `record: there is no file ${join(folder, "main.mjs")}: --program says where the program is\n`,
  });
  const { status, stderr } = commandNow(["--replay", join(folder, "seed-1.json")]);
  assert.deepEqual([status, stderr], [2, "record: the agents' module is missing; --help shows more\n"]);
});

test("a row that is too long to be known whole isn't kept, and it is said so", (context) => {
  const keeper = new RunStore(temporaryFolder(context));
  const options = /** @type {any} */ ({ kind: runKindOf({ program: true }), module: "file:///main.mjs", args: [] });
  const kept = (/** @type {number} */ draws) =>
    keepProgram(keeper, /** @type {any} */ ({ seed: 7, row: Array(draws).fill(0) }), options);
  assert.deepEqual(kept(MOST_DRAWS), [`not kept: seed-7.program.json: the run has ${MOST_DRAWS} draws or more`]);
  assert.deepEqual([kept(MOST_DRAWS - 1), keeper.names], [[], ["seed-7.program.json"]]);
});

test("a run in fresh threads is shortened by runs in fresh threads", async (context) => {
  // In threads that are kept no further run would throw.
  const program = programOf(context, {
    "main.mjs": `${mainWith(4)}globalThis.times = (globalThis.times ?? 0) + 1;
      started();
      for (let time = 0; time < 3; time += 1) Atomics.add(words, 0, 1);
      if (globalThis.times === 1 && Atomics.load(words, 0) > 3) throw new Error("too soon");`,
    "worker.mjs": `${WORKER}for (let time = 0; time < 3; time += 1) Atomics.add(words, 0, 1);`,
  });
  const group = await programGroup({ module: pathToFileURL(program).href, fresh: true });
  context.after(() => group.close());
  const { shortened } = await shorten(group, await firstFailing(group), { milliseconds: 60_000, most: 5 });
  assert.doesNotMatch(shortened.unchanged ?? "", /couldn't be made again/);
});

test("a run in fresh threads is shown with its lines, kept and replayed in fresh threads", async (context) => {
  // In threads that are kept the second run would find another number in the global.
  const { file, folder, name } = await kept(programOf(context, {
    "main.mjs": `${mainWith(8)}globalThis.times = (globalThis.times ?? 0) + 1;
      for (let time = 1; time < globalThis.times; time += 1) Atomics.add(words, 1, 1);
      started();
      if (Atomics.load(words, 0) === 0) Atomics.wait(words, 1, globalThis.times - 1);`,
    "worker.mjs": `${WORKER}Atomics.store(words, 0, 1);
      Atomics.notify(words, 1);`,
  }), ["--fresh", "--no-shorten"]);
  assert.deepEqual(JSON.parse(readFileSync(file, "utf8")).options, { fresh: true });
  assert.match(readFileSync(join(folder, `${name}.words`), "utf8"),
    /wait\(Int32_b0, 1, 0\) waits .*, at main\.mjs:7:\d+$/m);
  const { status, stdout, stderr } = commandNow(["--replay", file]);
  assert.deepEqual([status, stderr], [1, ""]);
  assert.match(stdout, /^1 of 1 run failed: 1 deadlock$/m);
});
