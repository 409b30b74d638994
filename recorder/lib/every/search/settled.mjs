// The states of agents that use an object from which nothing leads on: no operation begins or ends any more in what is
// reached from them.

import { actorOf, chosenIn } from "./chosen-acts.mjs";

/** @typedef {import("./search.mjs").Search} Search */

/**
 * The edges of a search that is closed, by the states to which they lead.
 * @param {Search} search
 * @returns {{ begins: Int32Array, sources: Int32Array }} `begins` of each state, and behind the last one
 */
export function sourcesIn({ count: states, targets, starts }) {
  const begins = new Int32Array(states + 1);
  for (let at = 0; at < targets.count; at += 1) begins[targets.items[at] + 1] += 1;
  for (let state = 0; state < states; state += 1) begins[state + 1] += begins[state];
  const sources = new Int32Array(targets.count);
  const next = begins.slice();
  for (let state = 0; state < states; state += 1) {
    for (let at = starts.items[state]; at < starts.items[state + 1]; at += 1) {
      const target = targets.items[at];
      sources[next[target]] = state;
      next[target] += 1;
    }
  }
  return { begins, sources };
}

/**
 * @param {{ begins: Int32Array, sources: Int32Array }} edges
 * @param {Uint8Array} marked by states, which gets a 1 for each from which a marked one is reached
 */
export function markBefore({ begins, sources }, marked) {
  const queue = [];
  for (let state = 0; state < marked.length; state += 1) if (marked[state] === 1) queue.push(state);
  for (let state = queue.pop(); state !== undefined; state = queue.pop()) {
    for (let at = begins[state]; at < begins[state + 1]; at += 1) {
      if (marked[sources[at]] === 1) continue;
      marked[sources[at]] = 1;
      queue.push(sources[at]);
    }
  }
}

/**
 * Sets of the monitor aren't compared: an exchange of like agents makes another one.
 * @param {Search} search that is closed, of agents that use an object
 * @param {Uint8Array} leads of each state whether one without an act is reached
 * @returns {Uint8Array} of each state from which none is, whether an operation begins or ends in what is reached
 */
export function goingOnIn(search, leads) {
  const { count: states, starts, taken, world } = search;
  const operations = /** @type {import("./operations.mjs").MonitoredOperations} */ (world.operations);
  const goesOn = new Uint8Array(states);
  for (let state = 0; state < states; state += 1) {
    if (leads[state] === 1) continue;
    /** @type {import("../../objects/history.mjs").HistoryEvent[]} */
    const events = [];
    operations.journal = events;
    for (let at = starts.items[state]; at < starts.items[state + 1]; at += 1) {
      const act = taken.items[at];
      world.load(state);
      world.step(actorOf(act), chosenIn(act));
    }
    if (events.length > 0) goesOn[state] = 1;
  }
  operations.journal = undefined;
  markBefore(sourcesIn(search), goesOn);
  return goesOn;
}
