// A slow judge of a trace, written from the definitions alone (crates/sab_judge/specs; ECMA-262, Memory Model): all
// pairs of events, each looked at by itself. It shares nothing with the recorder's detector, nor with sabsim's judge.

/** The members of each event of a trace, in their order. */
export const MEMBERS = [
  "event", "agent", "call", "does", "block", "byte", "size", "read", "write", "atomic", "waiters", "source",
];

/**
 * @typedef {object} Event a line of a trace (docs/FORMATS.md, A trace of the recorder)
 * @property {number} agent
 * @property {number} call
 * @property {string} does
 * @property {number} block
 * @property {number} byte
 * @property {number} size
 * @property {boolean} read
 * @property {boolean} write
 * @property {boolean} atomic
 * @property {boolean} waiters
 * @property {any} source
 */

/**
 * @typedef {object} Side one of two events that race
 * @property {number} agent
 * @property {boolean} atomic
 * @property {number} byte the first byte
 * @property {number} event the position
 * @property {boolean} read
 * @property {number} size
 * @property {boolean} write
 */

/**
 * @typedef {object} Race its members stand in the order of their names, as `sabsim judge --format json` writes them
 * @property {number} block
 * @property {number} byte the first byte on which the two overlap
 * @property {boolean} data_race whether the two are in a data race of this very order of the accesses
 * @property {Side} first
 * @property {Side} second
 * @property {number} [seen] the last event of the first one's agent that happens before the second event
 * @property {number} size on how many bytes the two overlap
 */

/** @typedef {Pick<Event, "block" | "byte" | "size">} Range of bytes */

/** @typedef {Uint8Array[]} Relation whether the i-th event is related to the j-th: `relation[i][j]` is 1, and else 0 */

/** @param {Event} event */
const accesses = ({ read, write }) => read || write;

/** @param {Event} event @param {number} block @param {number} byte */
const covers = (event, block, byte) => event.block === block && event.byte <= byte && byte < event.byte + event.size;

/** @param {Event} one @param {Event} other */
const isAtOnePlace = (one, other) => one.block === other.block && one.byte === other.byte;

/** @param {Event} one @param {Event} other */
const haveOneRange = (one, other) => isAtOnePlace(one, other) && one.size === other.size;

/** @param {Event} one @param {Event} other */
const overlap = (one, other) =>
  one.block === other.block && one.byte < other.byte + other.size && other.byte < one.byte + one.size;

/**
 * Whether both are atomic accesses of equal ranges.
 * @param {Event} one
 * @param {Event} other
 */
const areAlike = (one, other) =>
  accesses(one) && accesses(other) && one.atomic && other.atomic && haveOneRange(one, other);

/**
 * The event from which the j-th one reads a byte: the last one before it that writes the byte, by whomever.
 * @param {Event[]} events
 * @param {number} j
 * @param {number} byte
 * @returns {number} -1: nobody has written it, so it is the zero of the beginning
 */
function writerOf(events, j, byte) {
  for (let i = j - 1; i >= 0; i -= 1) {
    if (events[i].write && covers(events[i], events[j].block, byte)) return i;
  }
  return -1;
}

/**
 * reads-from: the events from which the j-th one reads some byte.
 * @param {Event[]} events
 * @param {number} j
 * @returns {Set<number>}
 */
function writersOf(events, j) {
  const writers = new Set();
  const { read, byte: first, size } = events[j];
  for (let byte = first; read && byte < first + size; byte += 1) writers.add(writerOf(events, j, byte));
  writers.delete(-1);
  return writers;
}

/**
 * synchronizes-with: an atomic read of one range reads from the atomic write; or the one leaves a critical section of a
 * place's waiters before the other enters it.
 * @param {Event[]} events
 * @param {Set<number>[]} writers
 * @param {number} i
 * @param {number} j
 */
function synchronizes(events, writers, i, j) {
  const [one, other] = [events[i], events[j]];
  if (areAlike(one, other) && writers[j].has(i)) return true;
  return one.waiters && other.waiters && isAtOnePlace(one, other);
}

/**
 * happens-before: the least transitive relation that has the agents' own order and synchronizes-with.
 * @param {Event[]} events
 * @param {Set<number>[]} writers
 * @returns {Relation}
 */
function happensBefore(events, writers) {
  const isDirect = (/** @type {number} */ i, /** @type {number} */ j) =>
    i < j && (events[i].agent === events[j].agent || synchronizes(events, writers, i, j));
  const before = events.map((_, i) => Uint8Array.from(events, (__, j) => (isDirect(i, j) ? 1 : 0)));
  for (let m = 0; m < events.length; m += 1) {
    for (let i = 0; i < events.length; i += 1) {
      if (before[i][m] === 1) addAll(before[i], before[m]);
    }
  }
  return before;
}

/** @param {Uint8Array} row @param {Uint8Array} more */
function addAll(row, more) {
  for (let j = 0; j < row.length; j += 1) row[j] |= more[j];
}

/**
 * A race, in this order of the accesses or in another one: two agents access a byte, one of them writes it, not both by
 * atomic accesses of equal ranges, and neither happens before the other. No later event happens before an earlier one.
 * @param {Event[]} events
 * @param {Relation} before
 * @param {number} i
 * @param {number} j
 */
function race(events, before, i, j) {
  const [one, other] = [events[i], events[j]];
  return i < j && one.agent !== other.agent && accesses(one) && accesses(other) && overlap(one, other) &&
    (one.write || other.write) && !areAlike(one, other) && before[i][j] === 0;
}

/**
 * A data race, as the standard has it (Races; Data Races): neither happens before the other, both write overlapping
 * bytes or the one reads from the other, and one of the two isn't atomic or their ranges aren't equal.
 * @param {Event[]} events
 * @param {Set<number>[]} writers
 * @param {Relation} before
 * @param {number} i
 * @param {number} j
 */
function isDataRace(events, writers, before, i, j) {
  const [one, other] = [events[i], events[j]];
  const meet = (one.write && other.write && overlap(one, other)) || writers[j].has(i);
  return before[i][j] === 0 && meet && !areAlike(one, other);
}

/** @param {Event[]} events @param {number} event @returns {Side} */
function sideOf(events, event) {
  const { agent, atomic, byte, read, size, write } = events[event];
  return { agent, atomic, byte, event, read, size, write };
}

/**
 * The last event of the first one's agent that happens before the second one.
 * @param {Event[]} events
 * @param {Relation} before
 * @param {number} i
 * @param {number} j
 */
const lastSeen = (events, before, i, j) =>
  events.findLastIndex(({ agent }, event) => agent === events[i].agent && before[event][j] === 1);

/**
 * All races of a trace.
 * @param {Event[]} events in their order
 * @returns {{ accesses: number, agents: number, races: Race[] }} how many events access bytes, and how many agents make
 * these; the races by their later events, and those of one later event by their earlier ones
 */
export function slowJudge(events) {
  const writers = events.map((_, j) => writersOf(events, j));
  const before = happensBefore(events, writers);
  /** @type {Race[]} */
  const races = [];
  for (let j = 0; j < events.length; j += 1) {
    for (let i = 0; i < j; i += 1) {
      if (race(events, before, i, j)) races.push(raceOf(events, writers, before, i, j));
    }
  }
  const made = events.filter(accesses);
  return { accesses: made.length, agents: new Set(made.map(({ agent }) => agent)).size, races };
}

/**
 * @param {Event[]} events
 * @param {Set<number>[]} writers
 * @param {Relation} before
 * @param {number} i
 * @param {number} j
 * @returns {Race}
 */
function raceOf(events, writers, before, i, j) {
  const [first, second] = [sideOf(events, i), sideOf(events, j)];
  const byte = Math.max(first.byte, second.byte);
  const size = Math.min(first.byte + first.size, second.byte + second.size) - byte;
  const seen = lastSeen(events, before, i, j);
  const parts = { block: events[i].block, byte, data_race: isDataRace(events, writers, before, i, j), first, second };
  return seen < 0 ? { ...parts, size } : { ...parts, seen, size };
}

/**
 * The pairs of events that race.
 * @param {Event[]} events in their order
 * @returns {[number, number][]} their indices, the smaller one first
 */
export function slowRaces(events) {
  /** @type {[number, number][]} */
  const pairs = slowJudge(events).races.map(({ first, second }) => [first.event, second.event]);
  return pairs.sort(([one, other], [first, second]) => one - first || other - second);
}

/**
 * The different pairs of lines that race, in the words of a summary.
 * @param {Event[]} events in their order
 */
export function racingLines(events) {
  const lineOf = (/** @type {number} */ at) => events[at].source.split("/").at(-1);
  return [...new Set(slowRaces(events).map((pair) => pair.map(lineOf).sort().join(" and ")))].sort();
}

/**
 * The events of a trace.
 * @param {string} trace lines of JSON
 * @returns {Event[]}
 */
export const eventsOfTrace = (trace) => trace.split("\n").slice(0, -1).map((line) => JSON.parse(line));
