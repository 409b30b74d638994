// What a strategy is: a class that is made of parts and a likelihood, and draws who moves next.

/**
 * @typedef {object} StrategyInputs what a strategy may draw by
 * @property {Int32Array} words of the board
 * @property {import("../../memory/random.mjs").Random} random
 * @property {import("./pending-accesses.mjs").PendingAccesses} asked what agents ask for, and which of it conflicts
 * @property {number} agents how many
 */

/**
 * @typedef {object} Drawing who moves next in a run
 * @property {() => void} begin a run begins
 * @property {(able: import("./able.mjs").Able, last: number) => number} drawn one of those that can move, of which
 * there is one at least. The agent `last` moved last, or it is -1
 */

/**
 * @typedef {{ Kind: new (parts: StrategyInputs, likelihood: number) => Drawing, hasLikelihood: boolean }} StrategyRow a
 * row
 */

export {};
