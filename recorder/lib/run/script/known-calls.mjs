// Calls as scripts and reports have them, remembered from run to run: the same call with the same result has the same
// texts. Most programs make few different ones.

import { flat } from "../../../script/flat.mjs";
import { viewText } from "../../../script/text.mjs";
import { FINGERPRINT } from "../../memory/records.mjs";

/** @typedef {import("../../../script/text.mjs").Done} Done */
/** @typedef {import("../../../script/text.mjs").SpelledView} SpelledView */

/**
 * @typedef {object} KnownCall
 * @property {Done} done
 * @property {SpelledView} [view] that a script with the call needs; undefined: it has a name, and so each script has it
 */

// When there are more, all are forgotten.
const MOST = 8_192;

/** @type {{ fingerprint: Int32Array, call: KnownCall }[]} */
const NONE_ALIKE = [];

/** For all calls with the same names and lengths of blocks. */
export class KnownCalls {
  /** @type {Map<number, { fingerprint: Int32Array, call: KnownCall }[]>} by a number that equal calls share */
  #known = new Map();
  #count = 0;
  #asked = new Int32Array(FINGERPRINT);

  /**
   * @param {import("./transcript.mjs").TranscriptSource["records"][number]} records
   * @param {number} position
   * @param {(records: import("./transcript.mjs").TranscriptSource["records"][number], position: number) => KnownCall}
   * make is called if the call isn't known
   * @returns {KnownCall}
   */
  at(records, position, make) {
    const asked = this.#asked;
    if (!records.takeFingerprint(position, asked)) return make(records, position);
    const key = keyOf(asked);
    const alike = this.#known.get(key) ?? NONE_ALIKE;
    for (let at = 0; at < alike.length; at += 1) {
      if (areEqual(alike[at].fingerprint, asked)) return alike[at].call;
    }
    const call = make(records, position);
    const { done, view } = call;
    done.text = flat(done.text);
    if (view !== undefined) view.text = flat(viewText(view));
    this.#add(key, { fingerprint: asked.slice(), call });
    return call;
  }

  /** @param {number} key @param {{ fingerprint: Int32Array, call: KnownCall }} entry */
  #add(key, entry) {
    if (this.#count === MOST) {
      this.#known.clear();
      this.#count = 0;
    }
    this.#count += 1;
    const alike = this.#known.get(key);
    if (alike === undefined) this.#known.set(key, [entry]);
    else alike.push(entry);
  }
}

/** @param {Int32Array} fingerprint @returns {number} of 30 bits */
function keyOf(fingerprint) {
  let key = 0;
  for (let at = 0; at < FINGERPRINT; at += 1) key = (Math.imul(key, 31) + fingerprint[at]) | 0;
  return key & 0x3fffffff;
}

/** @param {Int32Array} one @param {Int32Array} other */
function areEqual(one, other) {
  for (let at = 0; at < FINGERPRINT; at += 1) {
    if (one[at] !== other[at]) return false;
  }
  return true;
}
