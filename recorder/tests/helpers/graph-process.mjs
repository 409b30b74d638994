// Runs programs several times in one thread, each time by a fresh graph of modules. Prints, as JSON, the lines that
// each run of each program printed, and what was refused.

import util from "node:util";
import { ProgramModules } from "../../lib/program/modules/program-modules.mjs";

const [programs, runs] = process.argv.slice(2).map((word) => JSON.parse(word));
const graph = new ProgramModules({ refuse: () => {} });
const { log } = console;
const { setTimeout } = globalThis;

/**
 * What one run of a program prints.
 * @param {string} program a URL, or code for a worker that has `eval: true`
 */
async function linesOf(program) {
  /** @type {string[]} */
  const lines = [];
  console.log = (...given) => lines.push(...util.format(...given).split("\n"));
  graph.begin();
  try {
    if (/^(?:file|data):/.test(program)) await graph.enter(program);
    else await graph.evaluate(program);
  } catch (thrown) {
    const error = /** @type {Error | undefined} */ (thrown);
    lines.push(`failed: ${error?.name} ${error?.code} ${error?.message}`, ...String(error?.stack).split("\n"));
  }
  await new Promise((done) => setTimeout(done, 5));
  return lines;
}

/** @type {string[][][]} of each program, by the runs */
const all = programs.map(() => []);
for (let run = 0; run < runs; run += 1) {
  for (const [at, program] of programs.entries()) all[at].push(await linesOf(program));
}
log(JSON.stringify(all));
