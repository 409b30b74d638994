// The locks of a run, by their names: who holds each, and who waits for it, in the order of the requests. Each thread
// has such a table, and all make the same changes in the same order. The program may have replaced iterators.

import { mapForEach } from "../../primordials.mjs";

/** @typedef {"exclusive" | "shared"} Mode */
/** @typedef {{ agent: number, number: number, name: string, mode: Mode, port: number, where: string }} LockRequest */
/** @typedef {{ held: LockRequest[], pending: LockRequest[] }} NamedLock */
/** @typedef {"granted" | "stolen" | "missed"} Fate */
/** @typedef {{ fate: Fate, request: LockRequest }} Effect what a change means for the thread that has made a request */

/** @param {LockRequest} one @param {LockRequest} other @returns {boolean} */
const isSame = (one, other) => one.agent === other.agent && one.number === other.number;

/** @param {LockRequest} request @returns {boolean} */
const isShared = ({ mode }) => mode === "shared";

/**
 * @param {LockRequest} request
 * @param {LockRequest[]} held
 * @returns {boolean} whether it may be held together with those
 */
const fits = (request, held) => held.length === 0 || (isShared(request) && held.every(isShared));

export class LockTable {
  /** @type {Map<string, NamedLock>} those that are held or waited for */
  named = new Map();

  /**
   * @param {LockRequest} request
   * @param {{ ifAvailable: boolean, steal: boolean }} how
   * @returns {Effect[]}
   */
  request(request, { ifAvailable, steal }) {
    const named = this.named.get(request.name) ?? { held: [], pending: [] };
    this.named.set(request.name, named);
    if (steal) {
      /** @type {Effect[]} */
      const stolen = named.held.map((each) => ({ fate: "stolen", request: each }));
      named.held = [request];
      return stolen.concat([{ fate: "granted", request }]);
    }
    if (ifAvailable && (named.pending.length > 0 || !fits(request, named.held))) return [{ fate: "missed", request }];
    named.pending.push(request);
    return this.#grant(request.name);
  }

  /**
   * A lock is released, or isn't wanted any more.
   * @param {LockRequest} request
   * @returns {Effect[]}
   */
  remove(request) {
    this.#drop(request);
    return this.#grant(request.name);
  }

  /**
   * @param {number} agent that has ended
   * @param {boolean} grants whether others get its locks now, and not only when the next change is made
   * @returns {Effect[]}
   */
  removeOf(agent, grants) {
    const those = this.all().filter((each) => each.agent === agent);
    those.forEach((each) => this.#drop(each));
    const names = those.map(({ name }) => name).filter((name, at, all) => all.indexOf(name) === at);
    return grants ? names.flatMap((name) => this.#grant(name)) : [];
  }

  /** @param {string} name @returns {LockRequest[]} those that hold the lock */
  heldOf(name) {
    return this.named.get(name)?.held ?? [];
  }

  /** @param {LockRequest} request @returns {boolean} whether it is held */
  isHeld(request) {
    return this.heldOf(request.name).some((each) => isSame(each, request));
  }

  /** @returns {LockRequest[]} those that hold a lock or wait for one */
  all() {
    /** @type {LockRequest[]} */
    let all = [];
    mapForEach(this.named, (/** @type {NamedLock} */ { held, pending }) => { all = all.concat(held, pending); });
    return all;
  }

  /** @param {LockRequest} request */
  #drop(request) {
    const named = this.named.get(request.name);
    if (named === undefined) return;
    const isOther = (/** @type {LockRequest} */ each) => !isSame(each, request);
    named.held = named.held.filter(isOther);
    named.pending = named.pending.filter(isOther);
  }

  /** @param {string} name @returns {Effect[]} grants what may be held now, in the order of the requests */
  #grant(name) {
    /** @type {Effect[]} */
    const effects = [];
    const named = this.named.get(name);
    if (named === undefined) return effects;
    while (named.pending.length > 0 && fits(named.pending[0], named.held)) {
      const request = /** @type {LockRequest} */ (named.pending.shift());
      named.held.push(request);
      effects.push({ fate: "granted", request });
    }
    if (named.held.length === 0) this.named.delete(name);
    return effects;
  }
}
