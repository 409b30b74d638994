// The thread that learns each beginning and each edge once more, by other ways too, in the code as it is written: its
// module was loaded anew, and the edges come in reverse order.

import { workerData } from "node:worker_threads";
import { OwnClock } from "../../agent/own-clock.mjs";
import { clientOf } from "../../objects/object-client.mjs";
import { useOf } from "../../objects/object-module.mjs";
import { basesOf } from "../search/file.mjs";
import { nodeText } from "../search/node-texts.mjs";
import { CantLearn, isSame } from "./asked-nodes.mjs";
import { Asker } from "./asking.mjs";
import { AgentModules } from "./agent-modules.mjs";
import { learnedMarks } from "./learned-marks.mjs";
import { Learner } from "./learner.mjs";
import { showing } from "./learning-progress.mjs";
import { installRealm } from "./realm.mjs";
import { NodeWays } from "./node-ways.mjs";

/** @typedef {import("./learning-report.mjs").EdgeData} EdgeData */
/** @typedef {import("./learning-report.mjs").NodeData} NodeData */
/** @typedef {import("./asked-nodes.mjs").AskedNode} AskedNode */

/**
 * @typedef {object} AgainWorkerData
 * @property {string} module
 * @property {string[]} args
 * @property {import("../../options/plan.mjs").Plan} plan
 * @property {boolean} isShared
 * @property {boolean} isFresh whether real runs have new workers each time
 * @property {boolean} isLasting whether agents' clocks go on from round to round
 * @property {boolean} isEndless whether no wait ends by itself, and no time passes
 * @property {number} [each] how many operations of an object each agent makes at most, if the module is one of an
 * object
 * @property {SharedArrayBuffer} progress
 * @property {NodeData[]} nodes
 * @property {EdgeData[]} edges
 */

class Again {
  /** @param {Learner} learner @param {AgainWorkerData} given @param {NodeWays} ways */
  constructor(learner, { nodes, edges }, ways) {
    this.learner = learner;
    this.edges = edges;
    this.ways = ways;
    /** @type {NodeData[]} by their numbers */
    this.nodes = [];
    for (const node of nodes) this.nodes[node.id] = node;
  }

  /** @returns {string | undefined} what is different */
  run() {
    return this.ways.find((history) => this.#differs(history));
  }

  /**
   * @param {number[]} history numbers of edges, from the beginning of an agent on
   * @returns {string | undefined}
   */
  #differs(history) {
    const { edges, learner, nodes } = this;
    /** @param {number} at */
    const nodeAt = (at) => nodes[edges[history[at]].to];
    let at = 0;
    /** @type {AskedNode | undefined} */
    let last;
    /** @param {AskedNode} asked */
    const answer = (asked) => {
      last = asked;
      const isAsLearned = isSame(nodeAt(at), asked);
      at += 1;
      return isAsLearned && at < history.length ? edges[history[at]].from?.answer : undefined;
    };
    const ended = learner.call(edges[history[0]].automaton, { answer });
    const [got, count] = ended === undefined ? [last, at] : [ended, at + 1];
    const was = nodeAt(count - 1);
    if (got !== undefined && count === history.length && isSame(was, got)) return undefined;
    const now = got === undefined ? "nothing" : said(got);
    return `With the same ${count - 1} answers an agent was learned to do this: ${said(was)}; and now it does: ${now}`;
  }
}

/** @param {AskedNode} asked */
const said = (asked) => nodeText(/** @type {any} */ (asked));

/** @param {(url: string) => Promise<any>} load imports a module */
export async function main(load) {
  const given = /** @type {AgainWorkerData & { port: import("node:worker_threads").MessagePort }} */ (workerData);
  const { port } = given;
  try {
    port.postMessage({ differs: await differing(given, load) });
  } catch (problem) {
    const { stack = String(problem) } = /** @type {any} */ (problem);
    port.postMessage(problem instanceof CantLearn ? { differs: problem.message } : { failed: stack });
  }
  port.close();
}

/** @param {AgainWorkerData} given @param {(url: string) => Promise<any>} load */
async function differing(given, load) {
  const { module, args, edges, isShared, plan } = given;
  const ways = new NodeWays(edges);
  const asker = new Asker();
  asker.clock = new OwnClock(given.isLasting);
  asker.isEndless = given.isEndless;
  asker.onCall = showing(new Int32Array(given.progress));
  const platform = installRealm(asker);
  const agentOf = given.isFresh ? madeAnew(given, platform) : await asItIs(given, load);
  const { bases } = basesOf(plan.buffers);
  // Each run has buffers of its own: what a module keeps by those of an earlier one is out of reach.
  const agentNow = () => {
    asker.begin(plan.buffers, bases);
    return agentOf();
  };
  const agents = { count: plan.agents, args, canBlock: plan.canBlock, isShared };
  const marks = given.each === undefined ? undefined : learnedMarks(asker, module, () => []);
  const learner = new Learner(asker, agents, { agentNow, line: () => "", marks });
  return new Again(learner, given, ways).run();
}

/**
 * The agent's function of the module as it is written, which is loaded once: it keeps what it keeps from run to run.
 * @param {AgainWorkerData} given
 * @param {(url: string) => Promise<any>} load
 * @returns {Promise<() => Function>}
 */
async function asItIs({ module, each }, load) {
  const agent = agentIn(await load(module), each);
  return () => agent;
}

/**
 * @param {AgainWorkerData} given
 * @param {import("./node-platform.mjs").NodePlatform} platform
 * @returns {() => Function} its agent's function, each time of modules that begin anew
 */
function madeAnew({ module, each }, platform) {
  const graph = new AgentModules(platform, true);
  graph.take(module, true);
  return () => agentIn(graph.made({}).get(module), each);
}

/** @param {any} exported by the module @param {number | undefined} each as above @returns {Function} the agents' */
const agentIn = (exported, each) =>
  (each === undefined ? exported.default : clientOf(useOf(exported, { isAlone: false, each, staying: 0 })));
