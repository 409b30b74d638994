// A script that the recorder has kept, or that somebody has written, read back: the row of draws of its run, and what
// was done in it.
//
// An access or a notify is three moves in a row, and one draw. So is a wait that doesn't wait. One that waits is two
// moves, and two more if it is woken or its time is up, which is another draw. Stores by the views of ordinary writes
// and of `init` are no draws. A wait of a helper is one of the thread that has called waitAsync.

import { handOverOf, helpersIn } from "../../script/helpers.mjs";
import { CALLS, KINDS, SCRIPT_KINDS, SIZES } from "../../script/kinds.mjs";
import { OF_STORES, writtenText } from "../../script/written.mjs";
import { callNumber } from "../board/drawn-schedule.mjs";
import { byteOf } from "../memory/recorded-memory.mjs";
import { namedCallText, placedCallText } from "../memory/spelling.mjs";
import { Refused } from "../options/refused.mjs";

/**
 * @typedef {object} ScriptStep a call that begins, or a store that stands for an ordinary write
 * @property {number} agent
 * @property {boolean} isOwn whether the agent called it
 * @property {number} call its number among the agent's own; of a store that of the next one
 * @property {string} text as the script has it; for a store that stands for an ordinary write, what was written:
 * `samples[1] = 0.25`
 * @property {string} key the same, with what its view is in place of the view's name; if it is a byte of a program's
 * buffer in a window, with that one
 * @property {number} block
 * @property {number} from the first byte of its element
 * @property {number} to the byte behind its last one
 * @property {boolean} loads whether it is a load, which changes nothing
 */

/**
 * @typedef {object} Draw of who makes a call, or goes on from a wait
 * @property {number} agent
 * @property {ScriptStep} step the call
 * @property {boolean} goesOn
 * @property {ScriptStep[]} writes what the agent has written ordinarily before it asked for its next call
 */

/**
 * @typedef {object} KeptScript
 * @property {number[]} lengths of the blocks
 * @property {boolean[]} canBlock of each agent, without helpers and the one of `init`
 * @property {Draw[]} draws
 * @property {ScriptStep[]} steps in the order in which they begin
 */

const METHODS = CALLS.map(({ name }) => name);

const OF_INIT = /^init_/;

/** A text that is no script of the recorder's; it says why. */
class Unlike extends Error {}

/**
 * @param {boolean} holds
 * @param {string} why it is no script of the recorder's if that doesn't hold
 * @returns {asserts holds}
 */
function need(holds, why) {
  if (!holds) throw new Unlike(why);
}

/** @type {(value: unknown) => value is number} */
const isCount = (value) => Number.isInteger(value) && Number(value) >= 0;

/** @typedef {import("../memory/spelling.mjs").ViewRange} ViewRange */
/** @typedef {import("../run/windows/windows.mjs").Windows} Windows */

/**
 * @typedef {Map<string, import("../../script/text.mjs").View>} AsSpelled views as the script has them, by their names
 */

/** @param {any} script @param {number[]} lengths of its blocks @returns {Map<string, ViewRange>} by their names */
function viewsOf({ views }, lengths) {
  need(Array.isArray(views), "it has no views");
  return new Map(views.map(({ name, kind, block = 0, offset, length: given }) => {
    const number = SCRIPT_KINDS.indexOf(kind);
    // In a script that somebody has written it may be all up to the block's end.
    const length = given === null ? Math.floor((lengths[block] - offset) / SIZES[number]) : given;
    const isView = typeof name === "string" && number >= 0 && [block, offset, length].every(isCount);
    need(isView, `its view ${JSON.stringify(name)} isn't one`);
    return [name, { kind: number, block, offset, length }];
  }));
}

/** @param {any} script of either form @returns {number[]} the lengths of its blocks */
function lengthsOf(script) {
  const lengths = script?.blocks ?? (script?.bytes === undefined ? undefined : [script.bytes]);
  need(Array.isArray(lengths) && lengths.every(isCount), "it has no blocks");
  return lengths;
}

/**
 * @param {import("../memory/records.mjs").Call} call
 * @param {Windows | undefined} windows undefined: the script's blocks are the program's
 */
function keyOf(call, windows) {
  const behind = windows?.behind(call.block, byteOf(call));
  if (behind === undefined) return placedCallText(call, call);
  return `${behind.buffer} ${behind.byte} ${namedCallText(KINDS[call.kind], call, 0)}`;
}

/**
 * @param {any} parts of a call as a script has it
 * @param {Map<string, ViewRange>} views
 * @param {AsSpelled} spelled
 * @param {Windows | undefined} windows
 * @returns {Omit<ScriptStep, "agent" | "call"> & { view: string, waits: boolean, isHandOver: boolean }}
 */
function callOf(parts, views, spelled, windows) {
  need(Array.isArray(parts) && METHODS.includes(parts[0]), `${JSON.stringify(parts)} is no call`);
  const [method, name, index, ...rest] = parts;
  const view = views.get(name);
  need(view !== undefined, `its call ${JSON.stringify(parts)} has a view that it doesn't have`);
  const { kind, block } = view;
  const operands = rest.map((value) => (typeof value === "string" ? BigInt(value) : value));
  const call = { ...view, call: METHODS.indexOf(method), index, operands, limit: undefined };
  const from = byteOf(call);
  const isOwn = !OF_STORES.test(name);
  const isWrite = !isOwn && method === "store" && operands.length === 1;
  return {
    isOwn, view: name, waits: method === "wait", loads: method === "load", isHandOver: handOverOf(parts) !== undefined,
    text: isWrite ? writeOf(spelled, name, index, operands[0]) : namedCallText(name, call),
    key: keyOf(call, windows), block, from, to: from + SIZES[kind],
  };
}

/**
 * What a store that stands for a write has written.
 * @param {AsSpelled} views
 * @param {string} name of its view
 * @param {number} index
 * @param {number | bigint} operand
 */
function writeOf(views, name, index, operand) {
  const isOne = typeof operand === "bigint" || Number.isInteger(operand);
  need(isOne, `its store of ${operand} isn't one of an ordinary write`);
  return writtenText(/** @type {import("../../script/text.mjs").View} */ (views.get(name)), views, index, operand);
}

class Reader {
  /**
   * @param {any} script
   * @param {Set<number>} idle the moves that have no effect, by their positions
   * @param {Windows | undefined} windows
   */
  constructor(script, idle, windows) {
    this.lengths = lengthsOf(script);
    need(Array.isArray(script.agents) && Array.isArray(script.schedule), "it has no agents, or no schedule");
    const views = viewsOf(script, this.lengths);
    /** @type {AsSpelled} */
    const spelled = new Map(script.views.map((/** @type {any} */ view) => [view.name, view]));
    /** @type {{ move: any, at: number }[]} those that have an effect, with their positions in the schedule */
    this.moves = [...script.schedule.entries()].flatMap(([at, move]) => (idle.has(at) ? [] : [{ move, at }]));
    /** @type {ReturnType<typeof callOf>[][]} */
    this.calls = script.agents.map((/** @type {any} */ { calls }) => {
      need(Array.isArray(calls), "an agent has no calls");
      return calls.map((call) => callOf(call, views, spelled, windows));
    });
    const isOfInit = this.calls.at(-1)?.some(({ view }) => OF_INIT.test(view));
    /** From each helper to its thread. */
    this.owners = helpersIn(script.views);
    const own = script.agents.length - this.owners.size - (isOfInit ? 1 : 0);
    const areLast = [...this.owners].every(([helper, owner]) =>
      owner < own && helper >= own && helper < this.calls.length);
    need(areLast, "its views of waitAsync name agents that it doesn't have");
    /** @type {boolean[]} */
    this.canBlock = script.agents.slice(0, own).map((/** @type {any} */ { block }) => block);
    need(this.canBlock.every((block) => typeof block === "boolean"), "an agent doesn't say whether it can block");
    /**
     * For each agent: how many calls have begun, how many of these are its own, the last one if it waits, and its last
     * draw.
     * @type {{ begun: number, own: number, waits: ScriptStep | undefined, last: Draw | undefined }[]}
     */
    this.at = this.calls.map(() => ({ begun: 0, own: 0, waits: undefined, last: undefined }));
    /** @type {Draw[]} */
    this.draws = [];
    /** @type {ScriptStep[]} */
    this.steps = [];
    this.position = 0;
  }

  /** @returns {KeptScript} */
  read() {
    while (this.position < this.moves.length) this.#next();
    const rest = this.at.findIndex(({ begun }, agent) => begun < this.calls[agent].length);
    need(rest < 0, `agent ${rest} has calls that its schedule doesn't make`);
    const { lengths, canBlock, draws, steps } = this;
    return { lengths, canBlock, draws, steps };
  }

  #next() {
    const { move, at: place } = this.moves[this.position];
    const timeUp = move?.timeout;
    const agent = timeUp ?? move;
    const at = this.at[agent];
    need(at !== undefined, `its move ${place} is no agent's`);
    if (at.waits !== undefined) {
      need(this.#hasMoves(agent, 1), `its move ${place} doesn't end a wait in a row`);
      this.#draw({ agent: at.waits.agent, step: at.waits, goesOn: true, writes: [] });
      at.waits = undefined;
      this.position += 2;
      return;
    }
    need(timeUp === undefined, `its move ${place} ends a wait that there isn't`);
    this.#begin(agent, at, place);
  }

  /** @param {Draw} draw */
  #draw(draw) {
    this.draws.push(draw);
    this.at[draw.agent].last = draw;
  }

  /** @param {number} agent @param {Reader["at"][number]} at @param {number} place of its move in the schedule */
  #begin(agent, at, place) {
    const call = this.calls[agent][at.begun];
    need(call !== undefined, `its move ${place} belongs to no call`);
    const isWhole = this.#hasMoves(agent, 2);
    need(isWhole || (call.waits && this.#hasMoves(agent, 1)), `its move ${place} doesn't make a call in a row`);
    at.begun += 1;
    this.position += isWhole ? 3 : 2;
    if (!call.isHandOver) at.waits = this.#step(call, this.owners.get(agent) ?? agent, isWhole);
  }

  /**
   * @param {Reader["calls"][number][number]} call that begins
   * @param {number} agent whose it is: of a helper's its thread
   * @param {boolean} isWhole
   * @returns {ScriptStep | undefined} undefined: it is over
   */
  #step(call, agent, isWhole) {
    const at = this.at[agent];
    const step = { ...call, agent, call: at.own };
    this.steps.push(step);
    if (step.isOwn) this.#draw({ agent, step, goesOn: false, writes: [] });
    else at.last?.writes.push(step);
    at.own += step.isOwn ? 1 : 0;
    return isWhole ? undefined : step;
  }

  /** @param {number} agent @param {number} count @returns {boolean} whether so many moves of an agent come next */
  #hasMoves(agent, count) {
    const next = this.moves.slice(this.position + 1, this.position + 1 + count);
    return next.filter(({ move }) => move === agent).length === count;
  }
}

/**
 * Reads a script of the recorder's, or one that makes each call and each end of a wait in a row.
 * @param {string} text
 * @param {string} name of its file, for messages
 * @param {Iterable<number>} [idle] the positions of moves that have no effect
 * @param {Windows} [windows] of a program's run, if the script's blocks aren't the program's
 * @returns {KeptScript}
 * @throws {Refused}
 */
export function keptScript(text, name, idle = [], windows = undefined) {
  try {
    return new Reader(JSON.parse(text), new Set(idle), windows).read();
  } catch (problem) {
    if (!(problem instanceof Unlike || problem instanceof SyntaxError)) throw problem;
    throw new Refused(`${name} is no script that the recorder has kept: ${problem.message.split("\n")[0]}`);
  }
}

/**
 * The number of the call that is made by each draw; 0 if the agent goes on from a wait.
 * @param {KeptScript} kept
 * @returns {Int32Array}
 */
export function callNumbers({ draws }) {
  return Int32Array.from(draws, ({ goesOn, step }) => (goesOn ? 0 : callNumber(step.key)));
}
