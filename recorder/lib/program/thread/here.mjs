// Where the program's code is that has called one of the functions that stand for node's.

import { sourceLater, sourceOfCall } from "../../agent/frames.mjs";

export const UNKNOWN_PLACE = "a place that isn't known";

/** Among so many frames above `hereLater` is one of the program's code, as a rule. */
const FRAMES = 8;

/** @returns {string} */
export const here = () => sourceOfCall() ?? UNKNOWN_PLACE;

/** @returns {() => string} finds the same place when it is called */
export function hereLater() {
  const find = sourceLater(hereLater, FRAMES);
  return () => find() ?? UNKNOWN_PLACE;
}
