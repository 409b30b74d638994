// The ways to the agents' moments, for the second learning. A node's ways are the edges that lead to it. Before each
// edge goes the shortest way to its start. A node with several ways is tried behind each of them, up to a bound.

import { Random } from "../../memory/random.mjs";

/** @typedef {import("./learning-report.mjs").EdgeData} EdgeData */

/**
 * @typedef {object} WayCounts
 * @property {number} all how many ways lead to nodes that have several
 * @property {number} tried how many of these are tried
 * @property {number} edgesByOne how many edges have one history only, since a single way leads to each node before
 */

/** A node with more ways is tried behind so many that are drawn, and behind the shortest. */
export const MOST_WAYS = 16;

/** So many edges at most are gone over behind what a way is to try. */
const MOST_FURTHER = 64;

const SEED = 1;
const WORDS = 2 ** 32;

/** @param {Random} random @param {number} count @returns {number} a whole number below it, each as likely as others */
function below(random, count) {
  const most = WORDS - (WORDS % count);
  for (;;) {
    const drawn = random.next();
    if (drawn < most) return drawn % count;
  }
}

/** Runs beside code that may have replaced functions of the language, so it calls none of them after it was made. */
export class NodeWays {
  /** @param {EdgeData[]} edges of all automata, with the beginnings of the agents */
  constructor(edges) {
    this.edges = edges;
    /** @type {number[][]} by node the numbers of the edges that lead from it */
    this.out = [];
    /** @type {number[][]} by node the numbers of the edges that lead to it */
    this.into = [];
    for (const [number, { from, to }] of edges.entries()) {
      (this.into[to] ??= []).push(number);
      this.out[to] ??= [];
      if (from !== undefined) (this.out[from.node] ??= []).push(number);
    }
    /** @type {number[]} by node the last edge of the shortest way to it */
    this.first = [];
    /** @type {number[]} the nodes, nearest first */
    this.nearest = [];
    this.#findShortest();
    /** @type {boolean[]} by edge whether the node to which it leads is tried behind it */
    this.chosen = edges.map(() => false);
    this.#choose();
    /** @type {number[]} by edge how often it was gone over behind a way */
    this.gone = edges.map(() => 0);
  }

  #findShortest() {
    const { edges, first, nearest, out } = this;
    for (const [number, { from, to }] of edges.entries()) if (from === undefined) this.#reach(to, number);
    for (let at = 0; at < nearest.length; at += 1) {
      for (const number of out[nearest[at]]) {
        const { to } = edges[number];
        if (first[to] === undefined) this.#reach(to, number);
      }
    }
  }

  /** @param {number} node @param {number} number of the edge by which it is reached first */
  #reach(node, number) {
    this.first[node] = number;
    this.nearest.push(node);
  }

  /** Chooses the ways that are tried: all of a node, or as many drawn ones as there may be, and the shortest. */
  #choose() {
    const random = new Random(new Int32Array(4));
    random.seed(SEED);
    for (const node of this.nearest) {
      const left = [...this.into[node]];
      while (left.length > 0 && this.into[node].length - left.length < MOST_WAYS) {
        const [number] = left.splice(below(random, left.length), 1);
        this.chosen[number] = true;
      }
      this.chosen[this.first[node]] = true;
    }
  }

  /** @returns {WayCounts} */
  counts() {
    const { chosen, edges, first, into, nearest } = this;
    /** @type {Set<number>} nodes to which a single history leads */
    const single = new Set();
    const counts = { all: 0, tried: 0, edgesByOne: 0 };
    for (const node of nearest) {
      const from = edges[first[node]].from?.node;
      if (into[node].length > 1) {
        counts.all += into[node].length;
        counts.tried += into[node].filter((number) => chosen[number]).length;
      } else if (from === undefined || single.has(from)) single.add(node);
    }
    counts.edgesByOne = edges.filter(({ from }) => from !== undefined && single.has(from.node)).length;
    return counts;
  }

  /**
   * Calls a function with histories, as the numbers of their edges, until it returns something: together they go over
   * each edge, and behind each chosen way over all edges up to the next nodes that have several ways.
   * @template Found
   * @param {(history: number[]) => Found | undefined} visit
   * @returns {Found | undefined}
   */
  find(visit) {
    const { chosen, edges, first } = this;
    for (let number = edges.length - 1; number >= 0; number -= 1) {
      const { to } = edges[number];
      const isShortest = first[to] === number;
      // Longer histories go over it.
      if (isShortest && this.out[to].length > 0) continue;
      const history = this.#shortestOver(number);
      const found = chosen[number] && !isShortest ? this.#findBehind(history, visit) : visit(history);
      if (found !== undefined) return found;
    }
    return undefined;
  }

  /** @param {number} number of an edge @returns {number[]} the shortest way to its start, and the edge */
  #shortestOver(number) {
    const { edges, first } = this;
    let length = 1;
    for (let from = edges[number].from; from !== undefined; from = edges[first[from.node]].from) length += 1;
    const history = [number];
    history.length = length;
    let at = number;
    for (let position = length - 1; position >= 0; position -= 1) {
      history[position] = at;
      const { from } = edges[at];
      if (from !== undefined) at = first[from.node];
    }
    return history;
  }

  /**
   * @template Found
   * @param {number[]} way
   * @param {(history: number[]) => Found | undefined} visit
   * @returns {Found | undefined}
   */
  #findBehind(way, visit) {
    const { edges, into, out } = this;
    /** @type {number[]} of each node behind the way, how many of its edges are still to be gone over */
    const left = [out[edges[way[way.length - 1]].to].length];
    if (left[0] === 0) return visit(way);
    const history = copyOf(way);
    while (left.length > 0) {
      const top = left.length - 1;
      if (left[top] === 0) {
        left.length = top;
        history.length -= 1;
        continue;
      }
      left[top] -= 1;
      const number = out[edges[history[history.length - 1]].to][left[top]];
      history[history.length] = number;
      const { to } = edges[number];
      if (into[to].length === 1 && out[to].length > 0) {
        left[top + 1] = out[to].length;
        continue;
      }
      const found = visit(this.#further(history));
      if (found !== undefined) return found;
      history.length -= 1;
    }
    return undefined;
  }

  /** @param {number[]} history @returns {number[]} with what follows, by edges that were gone over least */
  #further(history) {
    const { edges, gone, out } = this;
    const longer = copyOf(history);
    for (let more = 0; more < MOST_FURTHER; more += 1) {
      const next = out[edges[longer[longer.length - 1]].to];
      if (next.length === 0) return longer;
      let least = next[0];
      for (let at = 1; at < next.length; at += 1) if (gone[next[at]] < gone[least]) least = next[at];
      gone[least] += 1;
      longer[longer.length] = least;
    }
    return longer;
  }
}

/** @param {number[]} numbers @returns {number[]} */
function copyOf(numbers) {
  const copy = [numbers[0]];
  for (let at = 1; at < numbers.length; at += 1) copy[at] = numbers[at];
  return copy;
}
