// What the recorder's own detector says about the events of a trace, and what it must say. Each access has a line of
// code of its own, so the detector reports every race.

import { isRacy, racesOf } from "../../lib/run/races/races.mjs";
import { logOf } from "./logs.mjs";

/** @typedef {{ isRacy: boolean, pairs: [number, number][] }} Detected by later events, and then by earlier ones */

/** @param {import("./slow-judge.mjs").Event[]} events @returns {Detected} */
export function detected(events) {
  const agents = 1 + Math.max(-1, ...events.map(({ agent }) => agent));
  const log = logOf(events.map((event, position) => ({ ...event, source: position + 1 })));
  /** @type {[number, number][]} */
  const pairs = racesOf(log, agents).map(({ one, other }) => [one, other]);
  pairs.sort(([one, other], [first, second]) => other - second || one - first);
  return { isRacy: isRacy(log, agents), pairs };
}

/** @param {ReturnType<typeof import("./slow-judge.mjs").slowJudge>} judged @returns {Detected} */
export const detectedPairs = ({ races }) =>
  ({ isRacy: races.length > 0, pairs: races.map(({ first, second }) => [first.event, second.event]) });
