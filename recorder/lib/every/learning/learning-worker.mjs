// The thread that learns the agents of a module and searches all their schedules. Its work is one: it reports, and
// ends.

import { workerData } from "node:worker_threads";
import { REFUSED, Refused } from "../../options/refused.mjs";
import { CantLearn } from "./asked-nodes.mjs";
import { Asker } from "./asking.mjs";
import { loadCode } from "./learned-code.mjs";
import { Learned } from "./learned.mjs";
import { NotTheSame } from "./learner.mjs";
import { PROGRESS, showing } from "./learning-progress.mjs";
import { installRealm, installShown } from "./realm.mjs";
import { learningReportOf } from "./learning-report.mjs";

/**
 * @typedef {import("./learned.mjs").LearningOptions & { module: string, within: number, flaw?: { hides?: string },
 * progress: SharedArrayBuffer }} LearningWorkerData `within` is for how many seconds it searches
 */

const CHANGED = "--all can't learn what the agents do: one changes the language's own objects";

/** @type {import("./learned-code.mjs").LearnedCode | undefined} the agents' code, once it is loaded */
let code;

const asker = new Asker();

// The agents get other clocks.
const now = performance.now.bind(performance);

/** Waits for its work, and does it. */
export function main() {
  const given = /** @type {LearningWorkerData & { port: import("node:worker_threads").MessagePort }} */ (workerData);
  const { port } = given;
  try {
    port.postMessage({ report: reported(given) });
  } catch (problem) {
    const answer = answerOf(asker.refused ?? problem);
    port.postMessage("failed" in answer && isChanged() ? { refused: CHANGED } : answer);
  }
  port.close();
}

/** @returns {boolean} whether the agents have changed the language's own objects: nothing works then as it should */
function isChanged() {
  try {
    return code?.builtins.haveChanged() === true;
  } catch {
    return true;
  }
}

/** @param {LearningWorkerData} given */
function reported(given) {
  const words = new Int32Array(given.progress);
  asker.onCall = showing(words);
  const platform = installRealm(asker);
  installShown();
  code = loadCode(given.module, asker, platform, given.flaw);
  const learned = new Learned(code, asker, given);
  const until = now() + 1_000 * given.within;
  return learned.search((search) => learningReportOf(learned, search), (states) => {
    words[PROGRESS.STATES] = states;
    return now() > until;
  });
}

/** @param {any} problem @returns {object} what is said about it */
function answerOf(problem) {
  if (problem instanceof Refused) return { refused: problem.message };
  if (problem?.name === REFUSED) return { refused: `--all needs of node what whole programs need: ${problem.message}` };
  if (problem instanceof CantLearn && problem.isRefused) return { refused: problem.message };
  if (problem instanceof CantLearn) return { unlearned: problem.message };
  if (problem instanceof NotTheSame) return { differs: problem.message };
  return { failed: problem?.stack ?? String(problem) };
}
