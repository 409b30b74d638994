// At `again` an agent's own clock begins anew, in all runs of `--all`, and so do its draws that are never equal. So
// nothing may be kept of them from round to round: an agent whose clock begins elsewhere must make the same calls, and
// be in the same state then. Two moments are one only if they are so with that beginning, too: else one that keeps
// something of the clock could pass for one that doesn't.

import { kindOfAsked } from "../../../script/choices.mjs";
import { DOES, DONE, isChoice, isMark } from "../search/nodes.mjs";
import { ActAccesses } from "./act-accesses.mjs";
import { isSame } from "./asked-nodes.mjs";
import { OTHER_START, accessed } from "./asking.mjs";

/** @typedef {import("../search/nodes.mjs").Node} Node */
/** @typedef {import("./learner.mjs").Learner} Learner */
/** @typedef {import("./learner.mjs").History} History */
/** @typedef {import("./asked-nodes.mjs").AskedNode} AskedNode */

/** @typedef {import("./learner.mjs").NodeOrigin} NodeOrigin */

/** @typedef {{ origin: NodeOrigin, key: string | undefined }} Round with the state at its `again` */

/** @typedef {{ line: string, isDraw: boolean }} KeptLook the line of what is kept, and whether it is a draw */

/** An agent keeps what a clock has shown it, or what it drew, from round to round, so its clock goes on. */
export class KeepsClock extends Error {
  /** @param {KeptLook} kept */
  constructor(kept) {
    super("an agent keeps what a clock has shown it");
    this.kept = kept;
  }
}

/** @param {Node} node @returns {string} what chooses there; empty if it is no choice */
const kindOf = ({ does, limit }) => (isChoice({ does }) ? kindOfAsked(/** @type {number} */ (limit)) : "");

/** @param {History} history @returns {History} its looks at a clock, and its draws that are never equal */
const looksIn = (history) => history.filter(([node]) => kindOf(node) === "time" || kindOf(node) === "unique");

/**
 * An agent keeps something of the clock at an `again`.
 * @param {Learner} learner
 * @param {number} agent
 * @param {Round} round that begins
 * @returns {KeepsClock}
 */
export function keepsClock(learner, agent, { origin, key }) {
  const { node: last, answer } = /** @type {NonNullable<NodeOrigin>} */ (origin);
  /** @type {History} */
  const history = [...learner.historyOf(last), [last, answer]];
  const looks = looksIn(history);
  const found = looks.findIndex((_, at) => keyBehind(learner, agent, history, at + 1) !== key);
  const [node] = looks[Math.max(found, 0)];
  return new KeepsClock({ line: learner.lineOf(node), isDraw: kindOf(node) === "unique" });
}

/**
 * @param {Learner} learner
 * @param {number} agent
 * @param {History} history
 * @param {number} shiftedLook which look shows something else
 * @returns {string | undefined} its state behind it; undefined: it does something else, or that can't be shown
 */
function keyBehind(learner, agent, history, shiftedLook) {
  const { asker } = learner;
  asker.shiftedLook = shiftedLook;
  let at = 0;
  /** @type {string | undefined} */
  let key;
  /** @param {AskedNode} asked */
  const answer = (asked) => {
    if (at === history.length) {
      key = learner.textOf(learner.automatonOf(agent), asked);
      return undefined;
    }
    const [node, answered] = history[at];
    at += 1;
    return isSame(node, asked) ? answered : undefined;
  };
  try {
    learner.call(agent, { answer });
  } finally {
    asker.shiftedLook = undefined;
  }
  return key;
}

/** What an agent asks for behind a history if its clock begins at another time. */
export class OtherStart {
  /** @type {{ asked: AskedNode, text: string | undefined }[]} each thing that it asks for, with its state */
  #moments = [];

  /** How many of them were compared. */
  #at = 0;

  /** Whether it does something else then. */
  #differs = false;

  /**
   * @param {Learner} learner
   * @param {number} agent
   * @param {History} history
   * @param {ActAccesses} accesses behind its last act
   * @param {Uint8Array} bytes what ordinary reads find
   */
  constructor(learner, agent, history, accesses, bytes) {
    const { asker } = learner;
    let at = 0;
    /** @param {AskedNode} asked */
    const answer = (asked) => {
      if (at === history.length) return this.#next(learner, agent, asked, accesses, bytes);
      const [node, answered] = history[at];
      at += 1;
      if (isSame(node, asked)) return answered;
      this.#differs = true;
      return undefined;
    };
    asker.start = OTHER_START;
    try {
      learner.call(agent, { answer });
    } finally {
      asker.start = 0;
    }
    this.#differs ||= at < history.length;
  }

  /**
   * @param {Learner} learner
   * @param {number} agent
   * @param {History} history
   * @param {boolean} isHead whether what comes behind it is the first behind a call
   * @param {Uint8Array} bytes
   * @returns {OtherStart | undefined} undefined: it makes no difference when the clock has begun
   */
  static behind(learner, agent, history, isHead, bytes) {
    const isNeeded = learner.hasClock && !learner.asker.clock.isLasting && looksIn(history).length > 0;
    return isNeeded ? new OtherStart(learner, agent, history, new ActAccesses(isHead), bytes.slice()) : undefined;
  }

  /**
   * It goes on as the call does that learns what is behind the history.
   * @param {Learner} learner
   * @param {number} agent
   * @param {AskedNode} asked
   * @param {ActAccesses} accesses
   * @param {Uint8Array} bytes
   * @returns {import("../search/nodes.mjs").Answer | undefined}
   */
  #next(learner, agent, asked, accesses, bytes) {
    const text = accesses.compares(asked) ? learner.textOf(learner.automatonOf(agent), asked) : undefined;
    const isKnown = text !== undefined && this.#moments.some((moment) => moment.text === text);
    this.#moments.push({ asked, text });
    if (isKnown || accesses.areTooMany || (text !== undefined && learner.hasChanged())) return undefined;
    if (isMark(asked)) return asked.isAlone ? undefined : DONE;
    if (accesses.isHead) return DONE;
    return asked.does === DOES.READ || asked.does === DOES.WRITE
      ? accessed(/** @type {any} */ (asked), bytes) : undefined;
  }

  /**
   * @param {AskedNode} asked by the agent with its own beginning: the next thing of what it asks for
   * @param {string | undefined} text its state, if it is compared
   * @returns {string | undefined} the other state, if that isn't the same; undefined: it can't be shown
   */
  differenceOf(asked, text) {
    const other = this.#moments[this.#at];
    this.#at += 1;
    this.#differs ||= other === undefined || !isSame(other.asked, asked);
    if (this.#differs) return "other";
    return other.text === text ? "" : other.text;
  }
}
