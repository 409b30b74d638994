// The command line, from its words to its status.

import { NEEDS, isFile, moduleUrl } from "../library/module-url.mjs";
import { Refused } from "../options/refused.mjs";
import { RemoteJob } from "../seeds/remote-job.mjs";
import { endBy, Interrupted } from "./interruption.mjs";
import { commandOptionsOf } from "./options.mjs";
import { print } from "./print.mjs";
import { messageOf } from "./problems.mjs";
import { Session } from "./session.mjs";
import { EXIT_STATUS } from "./status.mjs";

/** @typedef {import("../seeds/runs.mjs").AnyJob} AnyJob */

/**
 * @param {{ module: string, kind: import("../options/run-kinds.mjs").RunKind }} options
 * @returns {string} the URL of what is run
 */
function existing({ module, kind }) {
  const url = moduleUrl(module);
  if (!isFile(url)) throw new Refused(`there is no file ${module}`);
  NEEDS[kind.option](url, module);
  return url;
}

/** @param {unknown} problem */
function complain(problem) {
  process.stderr.write(`record: ${messageOf(problem)}\n`);
}

/**
 * @param {string[]} words of the command line
 * @param {AnyJob} [job] the first one, if it has begun
 * @returns {Promise<{ failed: boolean, problems: unknown[], isPart?: boolean }>} `isPart`: not all was done that
 * --all is for
 */
async function run(words, job) {
  try {
    const asked = commandOptionsOf(words);
    if ("text" in asked) {
      await print(asked.text);
      return { failed: false, problems: [] };
    }
    const { replay, kind } = asked;
    if (replay !== undefined && kind.keepsRow) {
      const { ProgramReplay } = await import("./replay-program.mjs");
      return await new ProgramReplay(asked, replay).run();
    }
    const module = existing(/** @type {any} */ (asked));
    if (asked.all) {
      const { EverySession } = await import("./every-session.mjs");
      return await new EverySession(asked, module, job).run();
    }
    if (replay === undefined) return await new Session(asked, module, job).run();
    const { Replay } = await import("./replay.mjs");
    return await new Replay(asked, module, replay).run();
  } catch (problem) {
    return { failed: false, problems: [problem] };
  } finally {
    await job?.close();
  }
}

/** @type {(problem: unknown) => problem is Interrupted} */
const isInterrupted = (problem) => problem instanceof Interrupted;

/**
 * Does what a command line asks for.
 * @param {string[]} words
 * @param {AnyJob} [job] the first one, if it has begun
 * @returns {Promise<number>} the status
 */
export async function obey(words, job) {
  // If nobody reads what went wrong, the status reports it.
  process.stderr.on("error", () => {});
  const { failed, isPart = false, problems } = await run(words, job);
  const interrupted = problems.find(isInterrupted);
  for (const problem of problems) {
    if (!(problem instanceof Interrupted)) complain(problem);
  }
  if (interrupted !== undefined) await endBy(interrupted.by);
  if (problems.length > 0) return problems[0] instanceof Refused ? EXIT_STATUS.REFUSED : EXIT_STATUS.NOT_DONE;
  if (failed) return EXIT_STATUS.SOME_FAILED;
  return isPart ? EXIT_STATUS.NOT_ALL : EXIT_STATUS.NONE_FAILED;
}

/**
 * @param {string[]} words of the command line
 * @param {import("node:child_process").ChildProcess} [child] the process of the first job, if it has begun
 * @returns {Promise<number>} the status
 */
export const main = (words, child) => obey(words, child && new RemoteJob(child));
