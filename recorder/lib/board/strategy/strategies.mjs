// The strategies, a row for each: the word that names it, the class that draws by it, and whether a likelihood comes
// behind its word, as in `switch:0.3`.

import { PartialOrder } from "./partial-order.mjs";
import { Switching } from "./switching.mjs";
import { Uniform } from "./uniform.mjs";

/** @type {Readonly<Record<string, import("./drawing.mjs").StrategyRow>>} */
export const STRATEGIES = Object.freeze({
  uniform: { Kind: Uniform, hasLikelihood: false },
  "partial-order": { Kind: PartialOrder, hasLikelihood: false },
  switch: { Kind: Switching, hasLikelihood: true },
});
