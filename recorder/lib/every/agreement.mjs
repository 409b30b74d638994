// Whether real runs are ways through the automata: call by call, answer by answer, with their ordinary accesses, their
// ends and their bytes.

import { askedBy, choiceText, returnedBy } from "../../script/choices.mjs";
import { SCRIPT_KINDS, SIZES } from "../../script/kinds.mjs";
import { OF_STORES } from "../../script/written.mjs";
import { unseenLine } from "../run/script/trace.mjs";
import { DOES, actsOf, isCall, isChoice, isEnd } from "./search/nodes.mjs";
import { World } from "./search/world.mjs";
import { nodeAnswerText, callData, nodeText, AutomatonViews } from "./search/node-texts.mjs";
import { hexOf } from "./search/raw-elements.mjs";
import { NotAsLearned } from "./not-as-learned.mjs";

/** @typedef {import("../seeds/job.mjs").CheckedOutcome} CheckedOutcome */
/** @typedef {CheckedOutcome & { isCovering?: boolean }} RealOutcome whether it has gone by a schedule of the search */
/** @typedef {import("./search/nodes.mjs").Node} Node */
/** @typedef {import("../../script/choices.mjs").AgentChoice} AgentChoice */

/**
 * @typedef {{ agent: number, call: number, does: string, block: number, byte: number, size: number }} RealEvent of a
 * trace
 */

/**
 * @typedef {{ text: string, kind: string, block: number, byte: number }} RealCall a call as a script has it, without
 * its view
 */

/** So many reads that are acts of their own an agent makes in a row at most. */
const MOST_ALONE = 100_000;

/** How a trace begins that may lack accesses. */
const UNSEEN = unseenLine("").slice(0, 10);

export class Agreement {
  /** @param {import("./search/world.mjs").Program} program */
  constructor(program) {
    this.program = program;
    this.world = new World(program);
    /** How many runs were compared. */
    this.compared = 0;
  }

  /**
   * @param {RealOutcome} outcome of a real run
   * @returns {boolean} whether it was compared: only if it has its script, its answers and a whole trace
   * @throws {NotAsLearned}
   */
  needs(outcome) {
    const { answers, choices, script, trace } = outcome;
    if (answers === undefined || script === undefined || trace === undefined) return false;
    if (trace.startsWith(UNSEEN)) return false;
    const way = new Way(this.world, callsOf(script), answers, choices);
    try {
      way.begin();
      for (const line of trace.split("\n")) if (line !== "") way.step(JSON.parse(line));
      way.end(outcome);
    } catch (problem) {
      if (!(problem instanceof NotAsLearned)) throw problem;
      const why = "The module may keep something from run to run, or go by chance or by a clock";
      const how = `does something else than was learned: ${problem.message}`;
      throw new NotAsLearned(`${runText(outcome)} ${how}. ${why}`);
    }
    this.compared += 1;
    return true;
  }
}

/** @param {RealOutcome} outcome @returns {string} which run it is */
export const runText = ({ isCovering, seed }) =>
  (isCovering ? "a run by a schedule of the search" : `the run of seed ${seed}`);

/** @param {string} text of a script @returns {RealCall[][]} of each agent its own calls */
function callsOf(text) {
  const { agents, views } = JSON.parse(text);
  const byName = new Map(views.map((/** @type {any} */ view) => [view.name, view]));
  /** @param {any[]} call */
  const isOwn = ([, view]) => !OF_STORES.test(view);
  return agents.map((/** @type {any} */ { calls }) => calls.filter(isOwn)
    .map((/** @type {any[]} */ [name, view, index, ...rest]) => {
      const { kind, block, offset } = /** @type {any} */ (byName.get(view));
      const byte = offset + index * SIZES[SCRIPT_KINDS.indexOf(kind)];
      return { text: JSON.stringify([name, ...rest]), kind, block, byte };
    }));
}

/** One run on its way. */
class Way {
  /**
   * @param {World} world
   * @param {RealCall[][]} calls
   * @param {(string | null)[][]} answers
   * @param {AgentChoice[][]} [choices] none: no agent has chosen
   */
  constructor(world, calls, answers, choices = []) {
    this.world = world;
    this.calls = calls;
    this.answers = answers;
    this.choices = choices;
    /** Of each agent how many of these were made. */
    this.chosen = world.nodes.map(() => 0);
    /** Of each agent the bytes that it has read and written since its last call. */
    this.touched = world.nodes.map(() => /** @type {Set<string>} */ (new Set()));
    /** Of each agent those that its accesses by the automata have, as far as it went on without a call. */
    this.passed = world.nodes.map(() => /** @type {Set<string>} */ (new Set()));
  }

  /** The agents begin in turn. */
  begin() {
    this.world.clear();
    this.world.begin((agent) => this.#choose(agent));
  }

  /** @param {RealEvent} event */
  step(event) {
    const { agent, does } = event;
    if (does === "read" || does === "write") {
      for (let at = 0; at < event.size; at += 1) this.touched[agent].add(`${does} ${event.block}:${event.byte + at}`);
      return;
    }
    this.#needAccesses(agent);
    const { world } = this;
    const node = world.nodes[agent];
    this.#needCall(event, node);
    if (does === "leave") need(world.wasWoken(agent), `agent ${agent} wasn't woken`);
    if (does === "time-up") need(world.canTimeOut(agent), `the time of agent ${agent} can't be up`);
    const goesOn = does === "time-up" ? world.timeOut(agent) : world.canAct(agent) && world.act(agent);
    need(goesOn, `agent ${agent} can't do it: ${does} of ${nodeText(node)}`);
    if (world.waits(agent)) return;
    this.#needAnswer(event, node);
    this.#choose(agent);
  }

  /**
   * Makes the choices that come next: nobody else moves at a choice of a real run.
   * @param {number} agent
   */
  #choose(agent) {
    while (this.#choice(agent) !== undefined) this.#pass(agent);
  }

  /** @param {number} agent @returns {AgentChoice | undefined} the choice that it makes now, if it makes one */
  #choice(agent) {
    return isChoice(this.world.nodes[agent]) ? this.choices[agent]?.[this.chosen[agent]] : undefined;
  }

  /**
   * Makes a choice, or a read that is an act of its own, and notes what it has touched.
   * @param {number} agent
   */
  #pass(agent) {
    const { world, passed: { [agent]: passed } } = this;
    const node = world.nodes[agent];
    const choice = this.#choice(agent);
    for (const one of this.#recent(agent)) passed.add(one);
    if (choice === undefined) add(passed, node);
    else {
      const isSame = actsOf({ ...node, limit: askedBy(choice) }) === actsOf(node);
      need(isSame, `agent ${agent} made ${choiceText(choice)}, and ${nodeText(node)} was learned`);
      this.chosen[agent] += 1;
    }
    const chosen = choice === undefined ? 0 : returnedBy(choice);
    need(world.act(agent, chosen), `agent ${agent} goes on where nothing was learned`);
  }

  /** @param {RealEvent} event @param {Node} node */
  #needCall({ agent, call }, node) {
    const made = this.calls[agent][call];
    const [name, , , ...rest] = isCall(node) ? callData(node, new AutomatonViews()) : ["nothing"];
    const is = JSON.stringify([name, ...rest]);
    const isThere = node.error !== undefined || (made?.block === node.block && made?.byte === node.byte);
    const isSame = isThere && made?.text === is;
    need(isSame, `call ${call} of agent ${agent} is ${made?.text}, and ${nodeText(node)} was learned`);
  }

  /** @param {RealEvent} event @param {Node} node */
  #needAnswer({ agent, call }, node) {
    const answer = nodeAnswerText(node, this.world.answered);
    const real = this.answers[agent][call];
    // The value of a store is what was stored.
    need(real === answer, `call ${call} of agent ${agent} was answered ${real}, and by the automata it is ${answer}`);
  }

  /**
   * Makes the reads of an agent that are acts of their own, with the choices behind them, and compares what it has
   * touched.
   * @param {number} agent
   */
  #needAccesses(agent) {
    const { world, touched } = this;
    const real = touched[agent];
    touched[agent] = new Set();
    const goesOn = () => world.nodes[agent].isAlone || this.#choice(agent) !== undefined;
    for (let many = 0; goesOn() && many < MOST_ALONE; many += 1) this.#pass(agent);
    const learned = this.passed[agent];
    this.passed[agent] = new Set();
    for (const one of this.#recent(agent)) learned.add(one);
    // The accesses of a wait's beginning were compared when it began.
    if (world.waits(agent) || world.wasWoken(agent)) return;
    const missing = [...real].find((one) => !learned.has(one)) ?? [...learned].find((one) => !real.has(one));
    need(missing === undefined, `the ordinary accesses of agent ${agent} differ: ${missing}`);
  }

  /** @param {number} agent @returns {Set<string>} the bytes that its recent accesses touch */
  #recent(agent) {
    /** @type {Set<string>} */
    const found = new Set();
    const { lists, program: { nodes }, recent } = this.world;
    for (const id of lists.members(recent[agent])) add(found, nodes[id]);
    return found;
  }

  /** @param {RealOutcome} outcome */
  end({ ending, bytes, detail, progress }) {
    const { world } = this;
    // A run of an object that is at rest may have a race, too.
    const waits = progress.some(({ calls, returned }) => returned < calls);
    const rests = ending === "deadlock" || (ending === "race" && waits);
    if (rests) {
      const canGoOn = world.nodes.findIndex((node, agent) => !isEnd(node) && !world.waits(agent));
      need(canGoOn < 0, `it is a deadlock, and agent ${canGoOn} can go on`);
    } else if (ending === "finished" || ending === "race" || ending === "check") {
      for (let agent = 0; agent < world.count; agent += 1) this.#needEnd(agent);
      this.#needBytes(bytes);
    } else if (ending === "failed" && /^agent \d+ threw /.test(detail)) {
      const thrown = world.nodes.find(({ does }) => does === DOES.THREW);
      need(thrown !== undefined && detail.includes(thrown.text ?? ""), `it threw: ${detail.split("\n")[0]}`);
    }
  }

  /** @param {number} agent that has ended */
  #needEnd(agent) {
    this.#needAccesses(agent);
    const node = this.world.nodes[agent];
    need(node.does === DOES.FINISHED, `agent ${agent} ended, and ${nodeText(node)} was learned`);
    const [many, { length = 0 }] = [this.chosen[agent], this.choices[agent] ?? []];
    need(many === length, `agent ${agent} made ${length} choices, and by the automata it makes ${many}`);
  }

  /** @param {string[] | undefined} bytes of each buffer */
  #needBytes(bytes) {
    const { program: { bases, lengths }, bytes: learned } = this.world;
    bytes?.forEach((hex, block) => {
      const is = hexOf(learned, bases[block], bases[block] + lengths[block]);
      need(hex === is, `it leaves ${hex} in buffer ${block}, and by the automata it is ${is}`);
    });
  }
}

/** @param {Set<string>} found @param {Node} node an ordinary access, whose bytes are added */
function add(found, { block, byte, size, written }) {
  for (let at = 0; at < size; at += 1) found.add(`${written === undefined ? "read" : "write"} ${block}:${byte + at}`);
}

/** @param {boolean} holds @param {string} why not @returns {asserts holds} */
function need(holds, why) {
  if (!holds) throw new NotAsLearned(why);
}
