// What the thread that learns and searches hands on.

import { kindOfAsked } from "../../../script/choices.mjs";
import { Positions, fileOf } from "../search/file.mjs";
import { isChoice, isOwnAct } from "../search/nodes.mjs";
import { Kinds, blocksIn, resultOf } from "../search/result.mjs";
import { coveringWays } from "../search/covering.mjs";
import { Findings } from "./findings.mjs";
import { NodeWays } from "./node-ways.mjs";
import { runOfWay } from "./run-of-way.mjs";

/** @typedef {import("../search/nodes.mjs").Node} Node */
/** @typedef {import("../search/nodes.mjs").Answer} Answer */
/** @typedef {import("./asked-nodes.mjs").AskedNode} AskedNode */
/** @typedef {import("../search/search.mjs").Search} Search */

/** @typedef {{ node: number, answer: Answer }} From a node's number, and what it is answered */

/**
 * @typedef {object} EdgeData an edge, to be learned again
 * @property {number} automaton
 * @property {From | undefined} from undefined: the beginning of an agent
 * @property {number} to the node to which it leads
 */

/** @typedef {AskedNode & { id: number }} NodeData */

/**
 * @typedef {object} ObjectData about an object that the agents use
 * @property {boolean} hasModel whether what is right is said by a class of its own
 * @property {boolean} looksAtNumber whether the object looks at its agent's number: of what is right it is 0
 * @property {boolean} isFinished whether the model had few enough states
 * @property {number} modelStates how many of these were needed
 * @property {string[]} alwaysThrow operations that have always thrown there
 * @property {number} sets how many sets of configurations there are
 * @property {number} notJudged in how many states the history isn't judged
 */

/** @typedef {ReturnType<typeof learningReportOf>} LearningReport */

/**
 * @param {import("./learned.mjs").Learned} learned
 * @param {Search} search that has run
 */
export function learningReportOf(learned, search) {
  const { code, learner, plan, isShared } = learned;
  const program = /** @type {import("../search/world.mjs").Program} */ (learned.program);
  const kinds = new Kinds(search).find();
  const findings = new Findings(learned, search, kinds).all();
  const positions = new Positions(program);
  // What each agent does is learned again, also if several go by one automaton.
  const roots = learner.roots.map((root) => ({ root: /** @type {Node} */ (root) }));
  const own = new Positions({ agents: roots }, learned.object !== undefined);
  const edges = edgesOf(own);
  const named = {
    position: (/** @type {Node} */ node) => positions.of(node),
    blocksOf: (/** @type {number} */ memory) => blocksIn(search.world, memory),
  };
  return {
    isClosed: search.isClosed, bound: search.bound, isShared, plan, hasLikes: search.world.hasLikes,
    each: learned.object === undefined ? undefined : code.each,
    neverEnds: kinds.neverEnds, kept: learned.kept, drawn: drawnIn(positions),
    /** All schedules up to so many acts were tried. */
    depth: search.isClosed ? undefined : search.depths.items[search.expanded],
    result: resultOf(search, kinds, named),
    file: fileOf(program, positions),
    findings,
    covering: search.isClosed && learned.wanted.covers ? coveringRuns(learned, search, positions) : [],
    counts: countsOf(own),
    object: objectDataOf(learned, kinds),
    edges,
    ways: new NodeWays(edges).counts(),
    nodes: own.nodes.flat().map(dataOf),
    hidden: [...learner.hidden].map(([why, kind]) => ({ why, ...kind })).sort((one, other) => other.nodes - one.nodes),
    runs: learner.runs, renewals: code.renewals,
    changesBuiltins: code.builtins.haveChanged(),
    widest: widestOf(learned, own),
  };
}

/**
 * @param {import("./learned.mjs").Learned} learned
 * @param {Kinds} kinds
 * @returns {ObjectData | undefined} undefined: the agents use no object that is watched
 */
function objectDataOf({ code, object }, kinds) {
  if (object === undefined) return undefined;
  const { model, monitor } = object;
  const { isFinished, states } = model;
  const counts = { sets: monitor.sets.length, notJudged: kinds.notJudged, modelStates: states.size };
  const { hasModel } = code;
  const looksAtNumber = !hasModel && object.looksAtNumber();
  return { hasModel, looksAtNumber, isFinished, alwaysThrow: model.alwaysThrow(), ...counts };
}

/** @typedef {import("./run-of-way.mjs").RunOfWay & { isWhole: boolean, edges: number }} CoveringRun */

/**
 * @param {import("./learned.mjs").Learned} learned
 * @param {Search} search
 * @param {Positions} positions
 * @returns {CoveringRun[]} runs that together go over the edges
 */
function coveringRuns({ learnedAt }, search, { nodes }) {
  return coveringWays(search, nodes.flat(), learnedAt).map(({ way, isWhole, edges }) =>
    ({ ...runOfWay(search.world, search.named(way).way), isWhole, edges }));
}

/** @param {Positions} positions */
function countsOf({ nodes }) {
  const all = nodes.flat();
  return {
    moments: all.filter(isOwnAct).length, choices: all.filter(isChoice).length,
    nodes: nodes.map(({ length }) => length),
    edges: edgesIn(all),
  };
}

/** @param {Node[]} nodes @returns {number} how many edges they have */
const edgesIn = (nodes) => nodes.reduce((sum, { edges }) => sum + edges.size, 0);

/** @param {Positions} positions @returns {{ numbers: boolean, unique: boolean }} what agents draw */
function drawnIn({ nodes }) {
  const kinds = new Set(nodes.flat().filter(isChoice).map(({ limit }) => kindOfAsked(/** @type {number} */ (limit))));
  return { numbers: kinds.has("random"), unique: kinds.has("unique") || kinds.has("lasting unique") };
}

/** @param {Node} node @returns {NodeData} */
const dataOf = ({ edges: _edges, automaton: _automaton, ...asked }) => asked;

/**
 * @param {Positions} positions
 * @returns {EdgeData[]} the beginnings of the agents, and all edges
 */
function edgesOf(positions) {
  const begins = positions.roots.map(({ automaton, id }) => ({ automaton, from: undefined, to: id }));
  const edges = positions.nodes.flatMap((nodes) => nodes.flatMap((node) => [...node.edges].map(([answer, to]) =>
    ({ automaton: node.automaton, from: { node: node.id, answer }, to: to.id }))));
  return [...begins, ...edges];
}

/**
 * What makes a search large: the automaton with the most nodes, and the line whose results lead to the most nodes.
 * @param {import("./learned.mjs").Learned} learned
 * @param {Positions} positions
 */
function widestOf({ code, learner }, positions) {
  const nodes = positions.nodes.map(({ length }) => length);
  const automaton = nodes.indexOf(Math.max(...nodes));
  const { answers, follow, place } = mostFollowed(learner, positions);
  const line = place === undefined ? undefined : code.lineOfPlace(place);
  return { automaton, nodes: nodes[automaton], line, follow, answers };
}

/**
 * @param {import("./learner.mjs").Learner} learner
 * @param {Positions} positions
 * @returns {{ place: number | undefined, follow: number, answers: number }} the place whose results lead to the most
 * nodes; to how many; how many different results one node there has at most
 */
function mostFollowed({ origins, places }, positions) {
  const all = positions.nodes.flat();
  /** @type {Map<number, number>} */
  const follow = new Map();
  for (const node of all) {
    let from = origins.get(node)?.node;
    while (from !== undefined && places[from.id] === undefined) from = origins.get(from)?.node;
    if (from !== undefined) follow.set(places[from.id], (follow.get(places[from.id]) ?? 0) + 1);
  }
  const [most] = [...follow].sort(([, one], [, other]) => other - one);
  if (most === undefined) return { place: undefined, follow: 0, answers: 0 };
  const answers = all.reduce((sum, { edges, id }) => (places[id] === most[0] ? Math.max(sum, edges.size) : sum), 0);
  return { place: most[0], follow: most[1], answers };
}
