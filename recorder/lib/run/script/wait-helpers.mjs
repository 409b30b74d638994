// Which helper of a script makes each wait of Atomics.waitAsync. A helper serves one thread, and makes one wait at a
// time. So a thread has as many helpers as such waits that are pending at once.

import { ENDS, helpersView } from "../../../script/helpers.mjs";
import { KINDS, SIZES } from "../../../script/kinds.mjs";
import { FEW_MESSAGES, MESSAGES } from "../../memory/blocks.mjs";
import { FLAG } from "../../memory/log.mjs";

/** @typedef {import("../../../script/text.mjs").Done} Done */

const INT32 = KINDS.indexOf("Int32");

/** The elements of a helper's view, and how many bytes they have. */
const PLACES = ENDS + 1;
const VIEW_BYTES = PLACES * SIZES[INT32];

/**
 * @param {import("../../memory/log.mjs").Log} log
 * @param {number} event
 * @returns {boolean} whether it is one of such a wait
 */
export const isAsync = (log, event) => (log.flagsAt(event) & FLAG.ASYNC) !== 0;

export class Helpers {
  /** @type {{ owner: number, call: number | undefined }[]} of each the thread, and which of its calls is pending */
  #all = [];

  /** @param {number} agents how many there are without helpers: from there on helpers are counted */
  constructor(agents) {
    this.first = agents;
  }

  /** @returns {number} how many there are */
  get count() {
    return this.#all.length;
  }

  /**
   * A wait begins.
   * @param {number} owner the thread that has called waitAsync
   * @param {number} call which of its calls it is
   * @returns {number} the agent that makes the wait
   */
  begin(owner, call) {
    const free = this.#all.findIndex((each) => each.owner === owner && each.call === undefined);
    if (free < 0) return this.first + this.#all.push({ owner, call }) - 1;
    this.#all[free].call = call;
    return this.first + free;
  }

  /** @param {number} owner @param {number} call of a wait that ends @returns {number} the agent that has made it */
  end(owner, call) {
    const at = this.#all.findIndex((each) => each.owner === owner && each.call === call);
    this.#all[at].call = undefined;
    return this.first + at;
  }

  /** @param {number} helper @returns {string} the name of the view by which it and its thread hand waits over */
  nameOf(helper) {
    return helpersView(helper, this.#all[helper - this.first].owner);
  }

  /**
   * @param {number} helper
   * @returns {import("./transcript.mjs").ViewRange} that view; messages have the block's first places
   */
  rangeOf(helper) {
    const offset = 4 * FEW_MESSAGES - (helper - this.first + 1) * VIEW_BYTES;
    return { kind: INT32, block: MESSAGES, offset, length: PLACES };
  }

  /**
   * The call by which one of the two hands a wait over, and the other one takes it: a notify that wakes nobody.
   * @param {number} helper
   * @param {number} place `BEGINS` or `ENDS`
   * @returns {Done}
   */
  handingOver(helper, place) {
    return { text: `["notify", "${this.nameOf(helper)}", ${place}, 0]`, joined: false, answer: "0", isOwn: false };
  }
}
