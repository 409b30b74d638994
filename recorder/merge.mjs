#!/usr/bin/env node
// Joins summaries that the recorder has made by `--format json`, such as those of several machines. `--help` shows
// more.

import { parseArgs } from "node:util";
import { formatted } from "./lib/command/formats.mjs";
import { merged, partsOf } from "./lib/command/merging.mjs";
import { print } from "./lib/command/print.mjs";
import { messageOf } from "./lib/command/problems.mjs";
import { EXIT_STATUS } from "./lib/command/status.mjs";
import { missingText } from "./lib/command/summary-text.mjs";
import { usageWords, versionLine } from "./lib/keeping/program.mjs";
import { Refused } from "./lib/options/refused.mjs";
import { OPTIONS, defaultText } from "./lib/options/table.mjs";

const DEFAULT = defaultText(OPTIONS.format);

const USAGE = `usage: ${usageWords("merge")} FILE.. [options]

Joins summaries of the recorder that --format json printed, as those of shards. The result is the summary that one
command line for all these runs would print. A file may have several, each on a line of its own; - is standard input.

  --format FORM   how the summary of all is printed: plain, or json, which is one line [default: ${DEFAULT}]
  -h, --help      this text
  -V, --version   the version

Status:
  0  no run failed
  1  some runs failed
  2  the command line was refused; a file can't be read or is no summary; or two don't fit together: their modules,
     sources or options differ, or they share a seed
  3  runs are missing: they were stopped, or the seeds of a shard are missing; or a shard went wrong
`;

/** @type {Record<string, { type: "string" | "boolean", short?: string }>} */
const SHAPE = {
  format: { type: "string" }, help: { type: "boolean", short: "h" }, version: { type: "boolean", short: "V" },
};

/** @param {string[]} words of the command line */
function wordsOf(words) {
  try {
    return parseArgs({ args: words, options: SHAPE, allowPositionals: true, strict: true });
  } catch (error) {
    throw new Refused(/** @type {Error} */ (error).message.split("\n")[0]);
  }
}

/** @param {unknown} problem */
function complain(problem) {
  process.stderr.write(`merge: ${messageOf(problem)}\n`);
}

/** @param {string[]} words of the command line @returns {Promise<number>} the status */
async function run(words) {
  const { values, positionals: files } = wordsOf(words);
  if (values.help || values.version) {
    await print(values.help ? USAGE : versionLine("merge"));
    return EXIT_STATUS.NONE_FAILED;
  }
  if (files.length === 0) throw new Refused("the summaries' files are missing; --help shows more");
  const { kind, ifNone } = OPTIONS.format;
  const format = kind.value(values.format ?? ifNone, "--format");
  const summary = merged(files.flatMap(partsOf));
  await print(formatted(summary, format));
  const problems = [...summary.missing.map(missingText), ...summary.problems];
  problems.forEach(complain);
  if (summary.stopped !== null || problems.length > 0) return EXIT_STATUS.NOT_DONE;
  return summary.failed > 0 ? EXIT_STATUS.SOME_FAILED : EXIT_STATUS.NONE_FAILED;
}

/** @returns {Promise<number>} the status */
async function main() {
  try {
    return await run(process.argv.slice(2));
  } catch (problem) {
    complain(problem);
    return problem instanceof Refused ? EXIT_STATUS.REFUSED : EXIT_STATUS.NOT_DONE;
  }
}

// If nobody reads what went wrong, the status reports it.
process.stderr.on("error", () => {});
process.exitCode = await main();
