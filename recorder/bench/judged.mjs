// What `--all` says of modules, and what is wrong with that if a reference says something else.

import { spawn } from "node:child_process";
import { fileURLToPath } from "node:url";
import { compared } from "./merging.mjs";

/**
 * @typedef {object} Judged
 * @property {"closed" | "open" | "refused" | "contradiction" | "broken"} kind
 * @property {string} said why it isn't closed
 * @property {string[]} finals memories at the end, in hexadecimal digits
 * @property {number} finalCount there may be more than are named
 * @property {string[]} throws
 * @property {string[]} checks
 * @property {boolean} hasDeadlock
 * @property {boolean} [hasRace] undefined: that wasn't looked for
 */

const RECORD = fileURLToPath(new URL("../record.mjs", import.meta.url));
const WORDS = ["--all", "--format", "json", "--jobs", "1", "--seeds", "1..2", "--fresh"];
const LIMIT = 200_000;
const NOTHING = { finals: [], finalCount: 0, throws: [], checks: [], hasDeadlock: false };

/** @param {string} path @returns {Promise<{ status: number | null, printed: string, said: string }>} */
const ended = (path) => new Promise((done) => {
  const child = spawn(process.execPath, [RECORD, path, ...WORDS], { stdio: ["ignore", "pipe", "pipe"] });
  let [printed, said] = ["", ""];
  child.stdout?.on("data", (text) => { printed += text; });
  child.stderr?.on("data", (text) => { said += text; });
  child.on("close", (status) => done({ status, printed, said }));
});

/** @param {string} path of a module @returns {Promise<Judged>} */
async function commandOn(path) {
  const { status, printed, said } = await ended(path);
  if (status === 2) return { ...NOTHING, kind: "refused", said };
  if (status === 3) return { ...NOTHING, kind: "contradiction", said };
  try {
    const first = JSON.parse(printed.split("\n")[0]);
    const { closed, finalCount, finals, found, open } = typeof first.every === "object" ? first.every : first;
    /** @param {string} wanted @returns {any[]} */
    const of = (wanted) => found.filter((/** @type {any} */ { kind }) => kind === wanted);
    return {
      kind: closed ? "closed" : "open", said: `${open}`, finalCount,
      finals: finals.map((/** @type {any} */ { blocks }) => blocks.join("|")),
      throws: of("threw").map(({ text }) => text), checks: of("check").map(({ text }) => text),
      hasDeadlock: of("deadlock").length > 0, hasRace: of("race").length > 0,
    };
  } catch (problem) {
    return { ...NOTHING, kind: "broken", said: `status ${status}: ${problem} ${said}` };
  }
}

/** @param {string[]} urls of modules @returns {AsyncGenerator<{ at: number, its: Judged }>} */
export async function* commandJudged(urls) {
  for (const [at, url] of urls.entries()) yield { at, its: await commandOn(fileURLToPath(url)) };
}

/** @param {string[]} urls of modules @returns {AsyncGenerator<{ at: number, its: Judged }>} without checks and races */
export async function* learnedJudged(urls) {
  const results = await compared({ urls, limit: LIMIT, isUnmergedToo: false });
  for (const [at, { problem, merged }] of results.entries()) {
    if (problem !== undefined) yield { at, its: { ...NOTHING, kind: "refused", said: problem } };
    else {
      const finals = merged.finals.map((/** @type {string} */ one) => one.replaceAll(",", "|"));
      const { deadlocks: hasDeadlock, failed: throws, isClosed } = merged;
      const kind = isClosed ? "closed" : "open";
      yield { at, its: { ...NOTHING, kind, said: "", finals, finalCount: finals.length, throws, hasDeadlock } };
    }
  }
}

/** @param {string} text of an error @returns {string} as summaries group them: without quotes and numbers */
const plain = (text) => text.split("\n")[0].replace(/^"(.*)"$/, "$1").replace(/\d+/g, "N");

/** @param {string} what @param {Iterable<string>} mine @param {string[]} its @returns {string[]} */
function differing(what, mine, its) {
  const [wanted, had] = [new Set([...mine].map(plain)), new Set(its.map(plain))];
  return [
    ...[...wanted].filter((one) => !had.has(one)).map((one) => `${what} isn't found: ${one}`),
    ...[...had].filter((one) => !wanted.has(one)).map((one) => `${what} is found, and can't be: ${one}`),
  ];
}

/**
 * @param {import("./reference.mjs").Referred} mine the reference's word
 * @param {Judged} its
 * @returns {string[]} what is wrong; of a module with a race only races count, since it isn't gone on behind one
 */
export function faultsOf(mine, its) {
  const isLearned = its.hasRace === undefined;
  const faults = [];
  if (!isLearned && mine.hasRace === true && !its.hasRace) faults.push("a race isn't found");
  if (!isLearned && mine.hasRace === false && its.hasRace) faults.push("a race is found, and can't be");
  if (mine.hasRace !== false) return faults;
  const has = new Set(its.finals);
  const isWhole = its.finals.length === its.finalCount;
  if (isWhole) for (const one of mine.finals) if (!has.has(one)) faults.push(`a final state isn't found: ${one}`);
  for (const one of has) if (!mine.finals.has(one)) faults.push(`a final state is found, and can't be: ${one}`);
  const { size } = mine.finals;
  if (its.finalCount !== size) faults.push(`${its.finalCount} final states, and there are ${size}`);
  if (its.hasDeadlock !== mine.hasDeadlock) faults.push(`a deadlock is ${mine.hasDeadlock ? "not found" : "found"}`);
  faults.push(...differing("what is thrown", mine.throws, its.throws));
  if (!isLearned) faults.push(...differing("what `check` finds", mine.checks, its.checks));
  return faults;
}
