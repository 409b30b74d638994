// What is reported about every schedule of a module of agents, as an object of JSON.

import { returnedBy } from "../../script/choices.mjs";
import { FinalStates } from "../run/ending/final-state.mjs";
import { adviceOf } from "./advice.mjs";

/** @typedef {import("../../script/choices.mjs").AgentChoice} AgentChoice */
/** @typedef {import("./every.mjs").EveryResult} EveryResult */
/** @typedef {import("./learning/learning-report.mjs").LearningReport} LearningReport */

/**
 * @typedef {object} FoundData
 * @property {"deadlock" | "threw" | "check" | "race" | "no way out" | "limit" | "failed" | "not linearizable"
 * | "lost wake-up"} kind
 * @property {string} text what was thrown, what `check` found, which lines race, or how a real run ended; empty if the
 * kind says all
 * @property {number} states in how many states it is; 0: only real runs have shown it
 * @property {number} runs how many real runs have shown it, if they alone have; else 0
 * @property {number | null} seed of the first of these runs; null if it went by a schedule of the search
 * @property {number} acts of the schedule that is shown; 0 if real runs alone have shown it
 * @property {number} changes of agents in it
 * @property {boolean} isEarly whether a timed wait ends in it while something else can move
 * @property {string[] | null} detail how the real run by that schedule ended, behind the operations of agents that spin
 * for ever; null: it isn't shown
 * @property {string | null} notShown why it isn't shown
 * @property {string | null} onlyIf what time must pass in that run
 * @property {number} operations of an object that are begun in the schedule that is shown
 * @property {boolean} drewSame whether two agents draw the same random number in the schedule that is shown
 */

/**
 * @typedef {object} ObjectUsesData what was tried of an object
 * @property {import("./every-use.mjs").UseSize[]} finished the sizes of which every use was tried
 * @property {import("./every-use.mjs").UseSize} size of the search that is reported
 * @property {import("./every-use.mjs").UseSize} next the size that was tried last
 * @property {string | null} open why not every use of it was tried
 * @property {boolean} hasModel whether `Model` says what is right; else the object itself, used by one agent alone
 * @property {boolean} looksAtNumber whether the object itself looks at the number of its agent: agent 0 is that agent
 * @property {string[]} alwaysThrow operations that have always thrown there
 * @property {number} modelStates how many states of it were needed
 * @property {number} sets of configurations that histories can leave
 * @property {number} notJudged in how many states the history wasn't judged
 */

/**
 * @typedef {object} EveryData
 * @property {ObjectUsesData | null} uses what was tried of an object; null: the module is none of an object
 * @property {boolean} closed whether every schedule was tried
 * @property {string | null} open why not
 * @property {boolean} isWhole whether all was done: every schedule was tried, and nothing was cut short by the time
 * @property {number} agents
 * @property {boolean} areAlike whether two agents are alike: states that differ only by an exchange of like agents
 * count as one then
 * @property {number} states
 * @property {number} acts
 * @property {number | null} depth all schedules up to so many acts were tried; null: every one was
 * @property {{ states: number, blocks: string[], text: string }[]} finals the bytes of each buffer at the end, in
 * hexadecimal digits, and as a summary has them
 * @property {number} finalCount of these
 * @property {FoundData[]} found
 * @property {boolean} neverEnds whether no agent ever ends: each real run is cut when one has made 100 calls
 * @property {number} moments of an agent: calls, choices, and reads that are acts of their own
 * @property {number} choices how many of these are choices
 * @property {string | null} keptClock the line at which an agent sees a time that it keeps from round to round
 * @property {string | null} keptDraw the line at which it draws what it keeps so
 * @property {boolean} drawsRandom whether an agent draws random numbers
 * @property {boolean} drawsUnique whether it draws eight or more random bytes at once, which are never equal to others
 * @property {number} edges each was learned twice
 * @property {number} edgesByOne of these, both times by the same history
 * @property {number} ways that lead to nodes that have several: each is an edge, behind the shortest way to its start
 * @property {number} waysTried behind so many of these the nodes were learned again
 * @property {{ why: string, nodes: number, line: string }[]} hidden moments that were compared with no others: why, how
 * many, and the line of the first one
 * @property {string[]} advice what can be changed in the module, so that every schedule can be tried, or moments can be
 * compared
 * @property {number} realRuns that agree with what was learned
 * @property {import("../seeds/ranges.mjs").SeedRange[]} notRun the seeds of those for which there was no time
 * @property {boolean} freshened whether each of them has loaded the modules anew though that wasn't asked for: the
 * modules keep something from run to run
 * @property {{ runs: number, edges: number, of: number } | null} covered how many of these went by schedules that go
 * over edges of the automata, and over how many edges of how many; null if there was none
 * @property {number} notCompared real runs that have no whole trace, and so weren't compared
 * @property {boolean} searchProved whether the proved search has found the same: the numbers are its own then
 * @property {string | null} notProved why there was no proved search
 * @property {{ automaton: number, nodes: number, line: string | null, follow: number, answers: number } | null} widest
 * the automaton with the most nodes; the line whose results lead to the most nodes, to how many, and how many different
 * results a moment there has at most
 * @property {number} milliseconds
 */

/** What stands where nothing could be learned. */
const NOTHING = Object.freeze({
  states: 0, acts: 0, depth: 0, finals: [], finalCount: 0, found: [], neverEnds: false, moments: 0, choices: 0,
  keptClock: null, keptDraw: null, drawsRandom: false, drawsUnique: false, edges: 0, edgesByOne: 0, ways: 0,
  waysTried: 0, hidden: [], widest: null,
});

/** @param {import("./every-use.mjs").EveryUseResult} tried @returns {EveryData} */
export function dataOf({ report, open, shown, onlyRuns, uses, ...tried }) {
  const common = { ...commonOf(open, tried, coveredOf(tried.covered, report)), uses: usesOf(uses, report) };
  if (uses !== undefined && !uses.isEnough && shown.length === 0) common.isWhole = false;
  const advice = adviceOf(open, report);
  if (report === undefined) return { ...NOTHING, agents: 0, areAlike: false, advice, ...common };
  const { counts, depth = null, findings, hasLikes, hidden, neverEnds, plan, result, ways, widest } = report;
  const { drawn, kept } = report;
  const keeps = { keptClock: kept?.isDraw === false ? kept.line : null, keptDraw: kept?.isDraw ? kept.line : null };
  const found = findings.map((finding) => dataOfFinding(finding, shown.find((each) => each.finding === finding)));
  return {
    ...common, agents: plan.agents, areAlike: hasLikes, states: result.states, acts: result.acts, depth,
    finals: finalsOf(report), finalCount: result.final.count, found: [...found, ...onlyRuns.map(dataOfRuns)],
    neverEnds, moments: counts.moments, choices: counts.choices, ...keeps, drawsRandom: drawn.numbers,
    drawsUnique: drawn.unique, edges: counts.edges, edgesByOne: ways.edgesByOne, ways: ways.all, waysTried: ways.tried,
    hidden, advice,
    widest: { ...widest, line: widest.line ?? null },
  };
}

/**
 * @param {import("./every-use.mjs").TriedUses} [uses]
 * @param {LearningReport} [report]
 * @returns {ObjectUsesData | null}
 */
function usesOf(uses, report) {
  if (uses === undefined || report?.object === undefined) return null;
  const { finished, next, open, size } = uses;
  const { isFinished: _isFinished, ...ofObject } = report.object;
  return { finished, size, next, open: open ?? null, ...ofObject };
}

/**
 * @param {EveryResult["covered"]} covered
 * @param {LearningReport | undefined} report
 * @returns {EveryData["covered"]}
 */
function coveredOf(covered, report) {
  if (covered.runs === 0 || report === undefined) return null;
  const nodes = report.file.automata.flatMap(({ nodes: own }) => own);
  return { ...covered, of: nodes.reduce((sum, { edges = [] }) => sum + edges.length, 0) };
}

/**
 * @param {string | undefined} open
 * @param {Omit<EveryResult, "report" | "open" | "shown" | "onlyRuns">} tried
 * @param {EveryData["covered"]} covered
 */
function commonOf(open, { realRuns, made, notRun, isProved, notProved, isCut, isFreshened, milliseconds }, covered) {
  const closed = open === undefined;
  const runs = { realRuns, covered, notRun, freshened: isFreshened, notCompared: made - realRuns };
  const proved = { searchProved: isProved, notProved: notProved ?? null };
  return { closed, open: open ?? null, isWhole: closed && !isCut, ...runs, ...proved, milliseconds };
}

/**
 * @param {import("./learning/findings.mjs").Finding} finding
 * @param {import("./showing.mjs").ShownFinding} [shown]
 * @returns {FoundData}
 */
function dataOfFinding({ kind, text, states, acts, changes, isEarly, choices, operations }, shown) {
  const outcome = shown?.isSame ? shown.outcome : undefined;
  const { detail, onlyIf } = endOf(outcome);
  // A run of agents that spin for ever meets a limit, and says nothing of their operations.
  const before = kind === "lost wake-up" && outcome?.ending === "limit" ? text.split("\n") : [];
  const end = { detail: detail && [...before, ...detail], onlyIf };
  const by = { acts, changes, isEarly, operations, drewSame: haveDrawnSame(choices) };
  return { kind, text, states, ...by, runs: 0, seed: null, ...end, notShown: shown?.why ?? null };
}

/** @param {AgentChoice[][]} agents their choices @returns {boolean} whether two have drawn the same random number */
function haveDrawnSame(agents) {
  const drawn = agents.map((choices) => choices.filter(([does]) => does === "random").map(returnedBy));
  return drawn.some((own, agent) => drawn.slice(agent + 1).some((other) => own.some((one) => other.includes(one))));
}

/** @param {import("../seeds/job.mjs").CheckedOutcome} [outcome] @returns {Pick<FoundData, "detail" | "onlyIf">} */
const endOf = (outcome) => ({ detail: outcome?.detail.split("\n") ?? null, onlyIf: outcome?.onlyIf ?? null });

/** @param {import("./only-runs.mjs").OnlyRun} found @returns {FoundData} */
function dataOfRuns({ kind, text, runs, outcome }) {
  const { isCovering, onlyIf } = outcome;
  const seed = isCovering ? null : outcome.seed;
  const noSchedule = { acts: 0, changes: 0, operations: 0, drewSame: false };
  const byRun = { states: 0, runs, seed, isEarly: onlyIf !== undefined, ...noSchedule };
  return { kind, text, ...byRun, ...endOf(outcome), notShown: null };
}

/** @param {LearningReport} report @returns {EveryData["finals"]} */
function finalsOf({ plan, result: { final } }) {
  const named = new FinalStates(plan.names);
  return final.listed.map(({ blocks, states }) => {
    const { named: text, shown } = named.of("finished", blocks);
    return { states, blocks, text: text ?? shown.join(" | ") };
  });
}
