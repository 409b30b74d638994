// The programs of `programs/` in node itself: the right ones end with exit code 0, and those on the order of events
// print what they print in the recorder.

import assert from "node:assert/strict";
import { readFileSync, readdirSync } from "node:fs";
import { before, describe, it, test } from "node:test";
import { fileURLToPath } from "node:url";
import { isDeepStrictEqual } from "node:util";
import { ORDER, orderPath, runInNode, runsInRecorder } from "../programs/order.mjs";
import { PROGRAMS, placesOf, urlOf } from "../programs/table.mjs";
import { withSignals } from "../helpers/needs.mjs";

const FOLDER = new URL("../programs/", import.meta.url);
const SIDE_BY_SIDE = 4;
const SEEDS = 3;

/** How often a program runs at most: on a busy machine node's own timers come in another order, or node breaks down. */
const TIMES_IN_NODE = 3;

const LEAST = { programs: 40, rare: 10, order: 30 };

/** What each program says about itself in its first line. */
const SAYS = /^\/\/ (Right|Wrong)[:,] /;

/** @param {string} text of a file */
const firstLine = (text) => text.split("\n")[0];

/** The files of the folder, apart from those on the order of events and packages, by their paths in it. */
function filesOfPrograms() {
  return readdirSync(FOLDER, { recursive: true, encoding: "utf8" })
    .filter((file) => /\/.*\.[cm]js$/.test(file) && !/^order\/|\/node_modules\//.test(file));
}

test("there are enough programs, each with a name of its own, and at least ten wrong ones are rare", () => {
  assert.ok(PROGRAMS.length >= LEAST.programs, `${PROGRAMS.length} programs`);
  assert.equal(new Set(PROGRAMS.map(({ name }) => name)).size, PROGRAMS.length);
  const rare = PROGRAMS.filter(({ isRare }) => isRare);
  assert.ok(rare.length >= LEAST.rare, `${rare.length} are rare`);
  assert.ok(ORDER.length >= LEAST.order, `${ORDER.length} on the order of events`);
});

test("the table has each file that says that it is right or wrong, as what it says", () => {
  const said = filesOfPrograms().flatMap((file) => {
    const says = SAYS.exec(firstLine(readFileSync(new URL(file, FOLDER), "utf8")));
    return says === null ? [] : [`${file} ${says[1]}`];
  });
  const listed = PROGRAMS.map(({ main, right }) => `${main} ${right ? "Right" : "Wrong"}`);
  assert.deepEqual(listed.sort(), said.sort());
});

test("a wrong program has findings, and their lines of code are there once each", () => {
  for (const program of PROGRAMS) {
    assert.equal(program.findings.length > 0, !program.right, program.name);
    for (const finding of program.findings) {
      assert.equal(placesOf(program, finding).length, finding.at.length);
      assert.ok(finding.at.length > 0 || finding.says !== undefined, program.name);
    }
  }
});

describe("right programs end with exit code 0 in node", { concurrency: SIDE_BY_SIDE }, () => {
  for (const program of PROGRAMS.filter(({ right, isEndless, isWeb }) => right && !isEndless && !isWeb)) {
    it(program.name, async () => {
      const { status, signal, problems } = await runInNode(fileURLToPath(urlOf(program)));
      const isLate = status === 1 && program.late?.test(problems) === true;
      assert.deepEqual({ status: isLate ? 0 : status, signal }, { status: 0, signal: null }, problems);
    });
  }
});

describe("endless programs run in node until Ctrl-C", withSignals, () => {
  for (const program of PROGRAMS.filter(({ isEndless }) => isEndless)) {
    it(program.name, async () => {
      const whenPrinted = (text, pid) => { if (text === "ready\n") process.kill(pid, "SIGINT"); };
      const { lines, signal, problems } = await runInNode(fileURLToPath(urlOf(program)), { whenPrinted });
      assert.deepEqual({ lines, signal }, { lines: ["ready"], signal: "SIGINT" }, problems);
    });
  }
});

/** What the recorder says about an exit code other than 0, if it isn't that of an exception that nobody catches. */
const CODES = [[/ exited with code (\d+)/, undefined], [/ threw in a listener of uncaughtException/, 7]];
const THREW = 1;

/** @param {import("../programs/order.mjs").InRecorder} run @returns {number} the exit code that it stands for */
function codeOf({ ending, detail }) {
  if (ending === "finished") return 0;
  assert.equal(ending, "failed", detail);
  for (const [pattern, code] of CODES) {
    const [found, number] = pattern.exec(detail) ?? [];
    if (found !== undefined) return code ?? Number(number);
  }
  return THREW;
}

/**
 * What a program prints in node, and its exit code: those that are wanted, if one of its runs has them.
 * @param {string} path
 * @param {Promise<unknown>} wanted
 */
async function foundInNode(path, wanted) {
  for (let left = TIMES_IN_NODE; ; left -= 1) {
    const { lines, status } = await runInNode(path);
    if (left === 1 || isDeepStrictEqual([lines, status], await wanted)) return { lines, status };
  }
}

describe("programs on the order of events print the same in node and each run", { concurrency: SIDE_BY_SIDE }, () => {
  /** @type {Promise<Map<string, import("../programs/order.mjs").InRecorder[]>>} */
  let recorded;
  before(() => { recorded = runsInRecorder(ORDER, SEEDS); });

  for (const name of ORDER) {
    it(name, async () => {
      const inRecorder = recorded.then((all) => (all.get(name) ?? []).map((run) => [run.lines, codeOf(run)]));
      const { lines, status } = await foundInNode(orderPath(name), inRecorder.then(([first]) => first));
      assert.ok(lines.length > 0 && !lines.some((line) => /\bnever\b/.test(line)), name);
      assert.deepEqual(await inRecorder, Array(SEEDS).fill([lines, status]));
    });
  }
});
