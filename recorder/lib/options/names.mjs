// The names that a module's `setup` gives to words and to arrays, by which scripts, reports and texts call them.

import { KINDS, SIZES } from "../../script/kinds.mjs";
import { SCRIPT_LIMITS } from "../../script/limits.mjs";
import { viewKey } from "../memory/spelling.mjs";
import { placeOf } from "./named-place.mjs";
import { Refused } from "./refused.mjs";

/**
 * @typedef {object} NamedView a view that has a name: one element, which is a word, or several
 * @property {string} name
 * @property {number} kind
 * @property {number} block
 * @property {number} offset
 * @property {number} length
 */

/**
 * @typedef {object} NamedElement an element by its name
 * @property {NamedView} view
 * @property {number} index of the element in the view
 */

// In scripts `ordinary_` may come before a name, and a view's name has 32 characters at most.
export const MOST_CHARACTERS = 23;
const RIGHT = new RegExp(`^[A-Za-z0-9_]{1,${MOST_CHARACTERS}}$`);

/** What scripts name views by themselves. */
const TAKEN = new RegExp(
  `^(?:ordinary_|init_|waitAsync_|unseen$)|^(?:${KINDS.join("|")})(?:_b\\d+)?(?:_at\\d+)?(?:_x\\d+)?$`,
);

const EXAMPLE = '{ LOCK: 0, slots: ["Uint8", 1], samples: { kind: "Float64", buffer: 0, offset: 8, length: 4 } }';

/** @param {string} name */
function needsRightName(name) {
  if (!RIGHT.test(name)) {
    throw new Refused(`\`names\` can't have "${name}": a name has 1 to ${MOST_CHARACTERS} letters, digits or _`);
  }
  if (TAKEN.test(name)) {
    throw new Refused(`\`names\` can't have ${name}: scripts give such names to other views, so choose another name`);
  }
}

/**
 * The names of a module's `setup`.
 * @param {unknown} given undefined: there are none
 * @param {number[]} lengths of the blocks
 * @returns {NamedView[]}
 * @throws {Refused}
 */
export function checkedNames(given, lengths) {
  if (given === undefined) return [];
  if (typeof given !== "object" || given === null || Array.isArray(given)) {
    throw new Refused(`\`names\` must be an object, as ${EXAMPLE}`);
  }
  const entries = Object.entries(given);
  if (entries.length > SCRIPT_LIMITS.views) {
    throw new Refused(`\`names\` has ${entries.length} names: a script has ${SCRIPT_LIMITS.views} views at most`);
  }
  /** @type {Map<number, string>} */
  const places = new Map();
  return entries.map(([name, value]) => {
    needsRightName(name);
    const found = { name, ...placeOf(name, value, lengths, EXAMPLE) };
    const place = viewKey(found);
    const other = places.get(place);
    if (other !== undefined) throw new Refused(`\`names\` has two names for one place, ${other} and ${name}: give one`);
    places.set(place, name);
    return found;
  });
}

export class Names {
  /** @param {NamedView[]} list */
  constructor(list) {
    this.list = list;
    /** The shortest first. */
    this.sorted = [...list].sort((one, other) => one.length - other.length);
    /** @type {Map<number, NamedElement | undefined>} what was asked for, by the keys of the elements */
    this.known = new Map();
  }

  /**
   * The element that begins at a byte, by its name. If several names have it, that of the shortest view counts: so a
   * word's goes before an array's.
   * @param {number} kind
   * @param {number} block
   * @param {number} byte
   * @returns {NamedElement | undefined}
   */
  at(kind, block, byte) {
    if (this.list.length === 0) return undefined;
    const key = viewKey({ kind, block, offset: byte, length: 1 });
    if (!this.known.has(key)) this.known.set(key, this.#at(kind, block, byte));
    return this.known.get(key);
  }

  /** @param {number} kind @param {number} block @param {number} byte @returns {NamedElement | undefined} */
  #at(kind, block, byte) {
    const size = SIZES[kind];
    const view = this.sorted.find((each) => {
      return each.kind === kind && each.block === block && byte >= each.offset
        && byte < each.offset + each.length * size;
    });
    return view === undefined || byte % size !== 0 ? undefined : { view, index: (byte - view.offset) / size };
  }

  /**
   * The element that is just some bytes, by its name, whatever its kind is.
   * @param {number} block
   * @param {number} from
   * @param {number} to
   * @returns {NamedElement | undefined}
   */
  of(block, from, to) {
    const kinds = this.list.map(({ kind }) => kind).filter((kind) => SIZES[kind] === to - from);
    return kinds.map((kind) => this.at(kind, block, from)).find((named) => named !== undefined);
  }

  /**
   * The element of a call, by its name.
   * @param {import("../memory/records.mjs").Call} call
   * @returns {NamedElement | undefined} undefined also if its view doesn't have that element: it throws by that view
   * alone
   */
  ofCall({ kind, block, offset, length, index }) {
    if (this.list.length === 0 || index < 0 || index >= length) return undefined;
    return this.at(kind, block, offset + index * SIZES[kind]);
  }
}

/** What names nothing. */
export const NO_NAMES = new Names([]);

/** @param {NamedElement} named @returns {string} how texts call an element that has a name */
export const nameText = ({ view, index }) => (view.length === 1 ? view.name : `${view.name}[${index}]`);
