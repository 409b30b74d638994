// Equivalent rows with fewer changes of agents. Two draws of different agents can change places if they touch no common
// byte, or only load. So an agent goes on as long as nothing is left that must come before its next call.

/** @typedef {import("./kept-script.mjs").KeptScript} KeptScript */

/** The last draws that touch a byte. */
class Byte {
  constructor() {
    this.change = -1;
    /** @type {number[]} */
    this.loads = [];
  }

  /** @param {number} draw @param {boolean} loads @returns {number[]} the draws that must come before it */
  take(draw, loads) {
    const before = loads ? [this.change] : [this.change, ...this.loads];
    if (loads) {
      this.loads.push(draw);
    } else {
      this.change = draw;
      this.loads = [];
    }
    return before.filter((other) => other >= 0);
  }
}

/** @param {KeptScript} kept @returns {number[][]} which draws must come before each draw */
function orderOf({ draws }) {
  /** @type {Map<string, Byte>} */
  const bytes = new Map();
  /** @type {number[][]} */
  const before = draws.map(() => []);
  /** @param {import("./kept-script.mjs").ScriptStep} step @param {number} draw */
  const take = ({ block, from, to, loads }, draw) => {
    for (let byte = from; byte < to; byte += 1) {
      const name = `${block} ${byte}`;
      const known = bytes.get(name) ?? new Byte();
      bytes.set(name, known);
      before[draw].push(...known.take(draw, loads));
    }
  };
  draws.forEach(({ step, writes }, draw) => {
    for (const each of [step, ...writes]) take(each, draw);
  });
  // What a draw touches twice comes before itself.
  return before.map((others, draw) => others.filter((other) => other !== draw));
}

/**
 * @param {number[] | undefined} before the draws that must come before one; undefined: there is none
 * @param {Set<number>} done
 */
const isFree = (before, done) => before !== undefined && before.every((other) => done.has(other));

/**
 * A row of a script's draws in an equivalent order, in which each agent goes on as long as it can.
 * @param {KeptScript} kept
 * @param {number} first the agent that begins if it can
 * @returns {number[]}
 */
export function groupedByAgent(kept, first) {
  const before = orderOf(kept);
  const { length } = kept.canBlock;
  /** The draws of each agent, and how many of them are done. */
  const own = kept.canBlock.map((_, agent) => kept.draws.flatMap((draw, at) => (draw.agent === agent ? [at] : [])));
  const at = own.map(() => 0);
  const done = new Set();
  const row = [];
  let agent = first;
  for (let idle = 0; idle < length; idle += 1) {
    for (let draw = own[agent][at[agent]]; isFree(before[draw], done); draw = own[agent][at[agent]]) {
      at[agent] += 1;
      done.add(draw);
      row.push(agent);
      idle = -1;
    }
    agent = (agent + 1) % length;
  }
  return row;
}
