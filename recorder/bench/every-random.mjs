// Random modules of agents, in three forms, judged by `--all` and by a reference that is independent of the recorder.
//
// node recorder/bench/every-random.mjs [FROM] [TO] [--learned] [--keep FOLDER]
//
// The status is 1 if `--all` says something else than the reference of a module, contradicts itself, or refuses one.
// With --learned what the agents were learned to do is searched once: no second learning, no real runs. So a module
// takes a tenth of the time. FOLDER gets the modules that aren't judged as they should be.

import { mkdirSync, mkdtempSync, readFileSync, rmSync, writeFileSync } from "node:fs";
import { tmpdir } from "node:os";
import { join } from "node:path";
import { fileURLToPath, pathToFileURL } from "node:url";
import { parseArgs } from "node:util";
import { isMain } from "./is-main.mjs";
import { commandJudged, faultsOf, learnedJudged } from "./judged.mjs";
import { randomModule } from "./random-modules.mjs";
import { Reference } from "./reference.mjs";
import { formsOf } from "./same-forms.mjs";

/** So many are written and learned by one thread. */
const BATCH = 40;

/** @typedef {import("./reference.mjs").Referred} Referred */
/** @typedef {{ seed: number, url: string, mine: Referred }} Drawn a module, and what the reference finds */

/** @param {Referred} mine @returns {boolean} whether it is a small module in which schedules make a difference */
const isTelling = ({ isPartial, finals, throws, hasDeadlock }) =>
  !isPartial && finals.size + throws.size + (hasDeadlock ? 1 : 0) > 1;

/**
 * @param {number[]} seeds
 * @param {string} folder
 * @returns {Promise<Drawn[]>} half of them as they are drawn, a quarter in each other form
 */
async function drawn(seeds, folder) {
  const found = seeds.flatMap((seed) => {
    const text = randomModule(seed);
    const mine = new Reference(text).run();
    if (!isTelling(mine)) return [];
    const path = join(folder, `random-${seed}.agents.mjs`);
    writeFileSync(path, text);
    return [{ seed, url: pathToFileURL(path).href, mine }];
  });
  const [bare, short] = Object.values(await formsOf(folder, found.map(({ url }) => url), folder));
  return found.map((one, at) => ({ ...one, url: [one.url, bare[at], one.url, short[at]][one.seed % 4] }));
}

/** @param {string} said @returns {string} without what differs from module to module */
const shortened = (said) => said.replace(/[\w./-]+\.mjs(?::\d+)*/g, "FILE").replace(/\d+/g, "N").split("\n")[0];

/**
 * @param {{ from: number, to: number, isLearned?: boolean, keep?: string }} asked which seeds, how they are judged, and
 * where those come that aren't judged as they should be
 * @param {(line: string) => void} say
 * @returns {Promise<{ counts: Record<string, number>, wrong: number[] }>}
 */
export async function randomJudged({ from, to, isLearned = false, keep }, say) {
  const folder = mkdtempSync(join(tmpdir(), "sabsim-random-"));
  /** @type {Record<string, number>} */
  const counts = { drawn: 0 };
  /** @type {number[]} */
  const wrong = [];
  try {
    for (let first = from; first < to; first += BATCH) {
      const seeds = Array.from({ length: Math.min(BATCH, to - first) }, (_, at) => first + at);
      const modules = await drawn(seeds, folder);
      counts.drawn += modules.length;
      const judge = isLearned ? learnedJudged : commandJudged;
      for await (const { at, its } of judge(modules.map(({ url }) => url))) {
        const { seed, url, mine } = modules[at];
        const faults = its.kind === "closed" ? faultsOf(mine, its) : [];
        const kind = faults.length > 0 ? "false" : its.kind;
        counts[kind] = (counts[kind] ?? 0) + 1;
        if (kind === "closed") continue;
        say(`seed ${seed}: ${kind} ${shortened(its.said)}${faults.map((fault) => `\n  ${fault}`).join("")}`);
        if (kind === "open") continue;
        wrong.push(seed);
        if (keep === undefined) continue;
        mkdirSync(keep, { recursive: true });
        const text = readFileSync(fileURLToPath(url), "utf8");
        writeFileSync(join(keep, `${kind}-${seed}.agents.mjs`), `// ${shortened(its.said)}\n${text}`);
      }
    }
  } finally {
    rmSync(folder, { recursive: true });
  }
  return { counts, wrong };
}

if (isMain(import.meta.url)) {
  const { values: { keep, learned }, positionals: [from = "0", to = "200"] } = parseArgs({
    options: { keep: { type: "string" }, learned: { type: "boolean" } }, allowPositionals: true,
  });
  const asked = { from: Number(from), to: Number(to), isLearned: learned, keep };
  const { counts, wrong } = await randomJudged(asked, console.log);
  console.log(JSON.stringify(counts));
  process.exitCode = wrong.length > 0 ? 1 : 0;
}
