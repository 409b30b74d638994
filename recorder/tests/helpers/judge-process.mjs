// A process that has random traces judged, one after the other: by the slow judge, by the recorder's own detector, and
// by the simulator. It is small, so it starts programs fast. Its words: the first seed, the last one, and the step from
// one to the next.

import { detected, detectedPairs } from "./detected.mjs";
import { randomTrace } from "./random-traces.mjs";
import { simulated } from "./simulate.mjs";
import { eventsOfTrace, slowJudge } from "./slow-judge.mjs";
import { jsonText, statusOf } from "./verdict-texts.mjs";

const WORDS = ["judge", "--trace", "--format", "json"];

const [, , first, last, step] = process.argv;

/**
 * What each says about a seed's trace, and what it must say.
 * @param {number} seed
 */
function judgedBy(seed) {
  const trace = randomTrace(seed);
  const events = eventsOfTrace(trace);
  const judged = slowJudge(events);
  const said = { detector: detected(events), sabsim: simulated(WORDS, trace) };
  const verdict = { status: statusOf(judged), output: jsonText(judged), errors: "" };
  const expected = { detector: detectedPairs(judged), sabsim: verdict };
  return { seed, isRacy: judged.races.length > 0, said, expected };
}

/** @typedef {ReturnType<typeof judgedBy>} JudgedSeed */

/** @param {JudgedSeed} judged */
const areEqual = ({ said, expected }) => JSON.stringify(said) === JSON.stringify(expected);

const found = { seeds: 0, racy: 0, differing: /** @type {JudgedSeed[]} */ ([]) };
for (let seed = Number(first); seed <= Number(last); seed += Number(step)) {
  const judged = judgedBy(seed);
  found.seeds += 1;
  if (judged.isRacy) found.racy += 1;
  if (!areEqual(judged)) found.differing.push(judged);
}
process.send?.(found, () => process.disconnect?.());
