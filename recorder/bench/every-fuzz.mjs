// Random agents, with merged moments and without: both must leave the same.
//
// node recorder/bench/every-fuzz.mjs [FROM] [TO] [temporaries|closures|privates|forms]
//
// One of the words temporaries, closures and privates leaves something out of an agent's state on purpose: then
// differences must be found. With the word forms the agents, and all modules of EVERY.md, are learned without
// semicolons and on the fewest lines too: in all forms the same must be learned.

import { mkdtempSync, readFileSync, rmSync, writeFileSync } from "node:fs";
import { tmpdir } from "node:os";
import { join } from "node:path";
import { pathToFileURL } from "node:url";
import { programOf } from "./every-programs.mjs";
import { compared } from "./merging.mjs";
import { inAllForms } from "./same-forms.mjs";

const [from = "0", to = "2000", hides] = process.argv.slice(2);

/** So many are tried by one thread. */
const BATCH = 50;
const LIMIT = 30_000;
/** Its keys are the paths of modules. */
const MODULES = new URL("./every-trial.json", import.meta.url);

/** @param {any} result */
const left = ({ finals, failed, deadlocks }) => JSON.stringify({ finals, failed, deadlocks });

const folder = mkdtempSync(join(tmpdir(), "sabsim-fuzz-"));
const counts = { tried: 0, open: 0, refused: 0, differ: 0, nodes: 0, unmerged: 0 };

/** @param {number} seed @returns {string} the URL of its module */
function written(seed) {
  const path = join(folder, `program-${seed}.mjs`);
  writeFileSync(path, programOf(seed));
  return pathToFileURL(path).href;
}

/** @param {number[]} seeds */
async function mergedOrNot(seeds) {
  const flaw = hides === undefined ? undefined : { hides };
  const results = await compared({ urls: seeds.map(written), limit: LIMIT, flaw });
  results.forEach(({ problem, merged, unmerged }, at) => {
    if (problem !== undefined) {
      counts.refused += 1;
      console.log(`seed ${seeds[at]}: ${problem}`);
    } else if (!merged.isClosed || !unmerged.isClosed) counts.open += 1;
    else {
      counts.tried += 1;
      counts.nodes += merged.nodes;
      counts.unmerged += unmerged.nodes;
      if (left(merged) === left(unmerged)) return;
      counts.differ += 1;
      console.log(`seed ${seeds[at]} differs`);
    }
  });
}

/** @param {string[]} urls @param {string} [base] */
async function inForms(urls, base) {
  for (const { url, own: { merged, problem }, differs } of await inAllForms(urls, base)) {
    if (problem !== undefined) counts.refused += 1;
    else {
      counts.tried += 1;
      counts.nodes += merged.nodes;
      if (!merged.isClosed) counts.open += 1;
    }
    if (differs.length === 0) continue;
    counts.differ += 1;
    console.log(`${url} differs ${differs.join("; ")}`);
  }
}

/** @template One @param {One[]} all @returns {Generator<One[]>} */
function* batches(all) {
  for (let at = 0; at < all.length; at += BATCH) yield all.slice(at, at + BATCH);
}

const seeds = Array.from({ length: Math.max(Number(to) - Number(from), 0) }, (_, at) => Number(from) + at);
try {
  for (const some of batches(seeds)) await (hides === "forms" ? inForms(some.map(written), folder) : mergedOrNot(some));
  const rows = hides === "forms" ? Object.keys(JSON.parse(readFileSync(MODULES, "utf8"))) : [];
  for (const some of batches(rows)) await inForms(some.map((path) => new URL(`../${path}`, import.meta.url).href));
} finally {
  rmSync(folder, { recursive: true });
}
console.log(JSON.stringify(counts));
process.exitCode = counts.differ > 0 ? 1 : 0;
