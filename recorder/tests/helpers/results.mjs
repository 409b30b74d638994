// What comes of files of tests, by node's reports in TAP: counts, what tests needed that isn't here, and what failed.

/**
 * @typedef {object} Result what came of a file of tests
 * @property {number} passed
 * @property {number} failed
 * @property {string[]} leftOut for each test that was left out, why, as `no browser`
 * @property {string[]} failing the names of the tests that failed
 * @property {string} problems what the report says about the tests that failed; the whole report if it names none
 */

/**
 * @typedef {object} Whole what came of all files
 * @property {number} passed
 * @property {number} failed
 * @property {string[]} lines what stands before the counts: what was left out, and what passed only the second time
 */

/** @typedef {{ name: string, failing: string[] }} Second a file whose tests failed first, and passed the second time */

/**
 * A report that names no test that failed. If it has no counts, it says so.
 * @param {string} report
 */
const withoutCounts = (report) =>
  (/^# pass \d+$/m.test(report) ? report : `${report}the report has no counts: the process has ended before\n`);

/**
 * Reads the report on a file of tests. It counts a failure too if the report doesn't fit node's status, or has no test.
 * @param {string} report
 * @param {boolean} isWell whether node ended with status 0
 * @returns {Result}
 */
export function readReport(report, isWell) {
  /** @param {string} name */
  const count = (name) => Number(new RegExp(`^# ${name} (\\d+)$`, "m").exec(report)?.[1] ?? 0);
  const [passed, failed] = [count("pass"), count("fail") + count("cancelled")];
  const leftOut = [...report.matchAll(/^ *ok \d+ - .* # SKIP (.*)$/gm)].map(([, why]) => why);
  const blocks = [...report.matchAll(/^( *)not ok [^]*?^\1 {2}\.\.\.$/gm)].map(([block]) => block);
  const failures = blocks.filter((block) => !block.includes("failureType: 'subtestsFailed'"));
  const failing = failures.map((block) => /^ *not ok \d+ - (.*)$/m.exec(block)?.[1] ?? "");
  const isSound = isWell ? failed === 0 && passed + leftOut.length > 0 : failed > 0;
  const problems = failures.length > 0 ? failures.join("\n") : withoutCounts(report);
  return { passed, failed: isSound ? failed : failed + 1, leftOut, failing, problems };
}

/**
 * How many of something, in words.
 * @param {number} count
 */
const tests = (count) => `${count} ${count === 1 ? "test" : "tests"}`;

/**
 * What was left out, by the reasons, as `left out: 34 tests (no browser), 1 test (no rt)`. Nothing: no line.
 * @param {string[]} reasons one for each test
 * @returns {string[]}
 */
function leftOutLines(reasons) {
  /** @type {Map<string, number>} */
  const counts = new Map();
  for (const reason of reasons) counts.set(reason, (counts.get(reason) ?? 0) + 1);
  const entries = [...counts].map(([reason, count]) => `${tests(count)} (${reason})`);
  return entries.length === 0 ? [] : [`left out: ${entries.join(", ")}`];
}

/**
 * What passed only the second time, as `passed only the second time: jobs.test.mjs (a job is killed)`.
 * @param {Second[]} second
 * @returns {string[]}
 */
function secondLines(second) {
  const entries = second.flatMap(({ name, failing }) =>
    (failing.length === 0 ? [name] : failing.map((test) => `${name} (${test})`)));
  return entries.length === 0 ? [] : [`passed only the second time: ${entries.join(", ")}`];
}

/**
 * What comes of all files. With sabsim, each test that was left out for lack of it counts as failed.
 * @param {Result[]} results
 * @param {Second[]} second the files that passed only the second time
 * @param {{ hasSabsim?: boolean, requireAll?: boolean }} how whether there is sabsim, and whether each test that was
 * left out, or passed only the second time, counts as failed
 * @returns {Whole}
 */
export function wholeOf(results, second = [], { hasSabsim = false, requireAll = false } = {}) {
  const leftOut = results.flatMap((result) => result.leftOut);
  const unwanted = leftOut.filter((reason) => requireAll || (hasSabsim && reason === "no sabsim"));
  const seconds = second.map(({ failing }) => Math.max(failing.length, 1)).reduce((sum, count) => sum + count, 0);
  /** @param {"passed" | "failed"} part */
  const count = (part) => results.reduce((sum, result) => sum + result[part], 0);
  return {
    passed: count("passed") - (requireAll ? seconds : 0),
    failed: count("failed") + unwanted.length + (requireAll ? seconds : 0),
    lines: [...leftOutLines(leftOut), ...secondLines(second)],
  };
}

/**
 * The last lines of a run of tests: what was left out, what passed only the second time, and the counts.
 * @param {Whole} whole
 */
export const closingLines = ({ passed, failed, lines }) => [...lines, `${passed} passed, ${failed} failed`];
