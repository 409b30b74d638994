// Compares the verdicts of `--all` about drawn modules of objects with those of the independent checker.
//
// usage: node tests/objects/compare.mjs FIRST LAST [AGENTS EACH [SECONDS]]
//
// A line for each module on which they differ. If the checker needs more than SECONDS, a module is left out. The last
// line is `N passed, M failed, K left out`.

import { spawnSync } from "node:child_process";
import { mkdtempSync, rmSync, writeFileSync } from "node:fs";
import { tmpdir } from "node:os";
import { join } from "node:path";
import { fileURLToPath, pathToFileURL } from "node:url";
import { learnApart } from "../../recorder/lib/every/learning/apart.mjs";
import { drawn } from "./draw.mjs";

const CHECKER = fileURLToPath(new URL("./wing-gong.mjs", import.meta.url));
const SECONDS = 120;

/** @param {string} file @param {number} agents @param {number} each what the recorder's search finds */
export async function foundBySearch(file, agents, each) {
  const report = await learnApart({
    module: pathToFileURL(file).href, args: [], place: { agents }, timeouts: "early", limit: 1_000_000, within: SECONDS,
    each,
  }, { seconds: 20 });
  const kinds = new Set(report.findings.map(({ kind }) => kind));
  return {
    closed: report.isClosed, wrong: kinds.has("not linearizable"), lost: kinds.has("lost wake-up"),
    race: kinds.has("race"), others: [...kinds].filter((kind) => /deadlock|threw|no way out/.test(kind)),
  };
}

/**
 * @param {string} file
 * @param {number} agents
 * @param {number} each
 * @param {number} seconds
 * @returns {any} what the checker finds; undefined: it needs more time
 */
export function foundByChecker(file, agents, each, seconds) {
  const words = [CHECKER, file, `${agents}`, `${each}`];
  const { signal, stdout, stderr } = spawnSync(process.execPath, words, { encoding: "utf8", timeout: 1_000 * seconds });
  if (signal !== null) return undefined;
  if (stdout === "") throw new Error(stderr);
  return JSON.parse(stdout);
}

/** What is returned if the checker needs more time. */
export const LEFT_OUT = "left out";

/**
 * @param {string} file
 * @param {number} agents
 * @param {number} each
 * @param {number} [seconds] that the checker may take
 * @returns {Promise<string | undefined>} how they differ
 */
export async function difference(file, agents, each, seconds = SECONDS) {
  const checker = foundByChecker(file, agents, each, seconds);
  if (checker === undefined) return LEFT_OUT;
  const search = await foundBySearch(file, agents, each);
  const both = JSON.stringify({ search, checker });
  if (!search.closed || search.others.length > 0 || search.race !== checker.race) return both;
  // With a race a search that makes all accesses between two calls at once may find something else.
  if (search.race) return undefined;
  const isSame = search.wrong === checker.wrong && (search.lost === checker.lost || (search.lost && checker.cut));
  return isSame ? undefined : both;
}

if (process.argv[1] === fileURLToPath(import.meta.url)) {
  const [first, last, agents = 2, each = 1, seconds = SECONDS] = process.argv.slice(2).map(Number);
  const room = mkdtempSync(join(tmpdir(), "objects-"));
  let failed = 0;
  let left = 0;
  for (let seed = first; seed <= last; seed += 1) {
    const { mutation, name, text } = drawn(seed);
    const file = join(room, `seed-${seed}.object.mjs`);
    writeFileSync(file, text);
    const why = await difference(file, agents, each, seconds);
    if (why !== undefined) console.log(`seed ${seed}: ${name}, ${mutation ?? "right"}: ${why}`);
    failed += Number(why !== undefined && why !== LEFT_OUT);
    left += Number(why === LEFT_OUT);
  }
  rmSync(room, { recursive: true });
  console.log(`${last - first + 1 - failed - left} passed, ${failed} failed, ${left} left out`);
}
