// Which ordinary writes a run's script has: all of them as they were written, if they fit; else as the largest whole
// aligned elements; else only those of bytes that some call touches, since the answers depend on these.

import { KINDS, SIZES } from "../../../script/kinds.mjs";
import { SCRIPT_LIMITS } from "../../../script/limits.mjs";
import { scriptText } from "../../../script/text.mjs";
import { LEAVE, MAKE, MOVES, TIME_UP } from "../../board/journal.mjs";
import { FLAG, READ } from "../../memory/log.mjs";
import { NO_NAMES } from "../../options/names.mjs";
import { Helpers, isAsync } from "./wait-helpers.mjs";
import { UNSEEN, transcriptOf } from "./transcript.mjs";

/** @typedef {import("../../memory/stores.mjs").Store} Store */
/** @typedef {import("../../../script/text.mjs").Transcript} Transcript */

/**
 * @typedef {object} ScriptWithinLimits
 * @property {Transcript} transcript
 * @property {string} [script] none if it doesn't fit
 * @property {"all" | "touched"} [holds] which ordinary writes it has
 * @property {string[]} [bytes] of each block at the end, in hexadecimal digits, as the script leaves them
 * @property {string} [noScript] why there is no script
 */

const TRACE_ALONE = "which no script can have: sabsim judges only the trace of such a run";

/** Why there is no script of a run whose calls alone are too many, as a program's may be. */
const BEYOND = `a thread made more than ${SCRIPT_LIMITS.calls} calls, ${TRACE_ALONE}`;
const BEYOND_WITH_HELPERS = `with the calls for Atomics.waitAsync an agent has more than ${SCRIPT_LIMITS.calls} calls, `
  + TRACE_ALONE;
const TOO_MANY = `it has more than ${SCRIPT_LIMITS.agents} threads and waits of Atomics.waitAsync that are pending at `
  + `once, ${TRACE_ALONE}`;

/** The unsigned kinds, the largest first. */
const UNSIGNED = ["BigUint64", "Uint32", "Uint16", "Uint8"].map((name) => {
  const kind = KINDS.indexOf(name);
  return { size: SIZES[kind], kind };
});

/** @param {Store} store */
const endOf = (store) => store.byte + SIZES[store.kind];

/**
 * The bytes that some call reads or writes, of each block.
 * @param {import("../../memory/log.mjs").Log} log
 * @param {number[]} lengths
 * @returns {Uint8Array[]} 1 for each such byte
 */
function touchedBytes(log, lengths) {
  const touched = lengths.map((length) => new Uint8Array(length));
  for (let event = 0; event < log.length; event += 1) {
    if (log.whatAt(event) >= READ || (log.flagsAt(event) & (FLAG.READS | FLAG.WRITES)) === 0) continue;
    touched[log.blockAt(event)].fill(1, log.fromAt(event), log.toAt(event));
  }
  return touched;
}

/** @param {Uint8Array[]} touched @param {Store} store @returns {boolean} whether a call touches a byte of a store */
function isTouched(touched, store) {
  const marks = touched[store.block];
  for (let byte = store.byte; byte < endOf(store); byte += 1) {
    if (marks[byte] === 1) return true;
  }
  return false;
}

/**
 * Stores that were taken at once from one agent, as few as possible: the largest whole aligned elements.
 * @param {Store[]} stores
 * @returns {Store[]}
 */
function joined(stores) {
  /** @type {Map<number, Store[]>} */
  const groups = new Map();
  for (const store of stores) {
    const key = (store.position * (SCRIPT_LIMITS.agents + 1) + store.agent) * SCRIPT_LIMITS.blocks + store.block;
    const group = groups.get(key);
    if (group === undefined) groups.set(key, [store]);
    else group.push(store);
  }
  /** @type {Store[]} */
  const all = [];
  for (const group of groups.values()) addJoined(all, group);
  return all;
}

/** What was last written to each byte of a block, while the stores of one group are joined: nothing outlives that. */
const written = new Uint8Array(SCRIPT_LIMITS.bytes);

/**
 * Adds those of one group.
 * @param {Store[]} all
 * @param {Store[]} stores
 */
function addJoined(all, stores) {
  const [{ position, agent, block }] = stores;
  const places = placesOf(stores);
  for (let at = 0; at < places.length;) {
    const byte = places[at];
    let which = 0;
    while (!isWhole(places, at, UNSIGNED[which].size)) which += 1;
    const { size, kind } = UNSIGNED[which];
    all.push({ position, agent, block, byte, kind, bytes: written.slice(byte, byte + size) });
    at += size;
  }
}

/**
 * Whether an aligned element begins at one of the places and ends before a gap.
 * @param {Int32Array} places
 * @param {number} at
 * @param {number} size
 */
const isWhole = (places, at, size) => places[at] % size === 0 && places[at + size - 1] === places[at] + size - 1;

/**
 * The bytes that some stores write; what they write there is in `written`.
 * @param {Store[]} stores of one block
 * @returns {Int32Array} in rising order, each once
 */
function placesOf(stores) {
  const places = new Int32Array(stores.reduce((sum, { kind }) => sum + SIZES[kind], 0));
  let count = 0;
  let isRising = true;
  for (const { byte, bytes } of stores) {
    for (let at = 0; at < bytes.length; at += 1) {
      isRising &&= count === 0 || places[count - 1] < byte + at;
      places[count] = byte + at;
      written[byte + at] = bytes[at];
      count += 1;
    }
  }
  return isRising ? places : places.sort().filter((place, at) => at === 0 || places[at - 1] !== place);
}

/**
 * How many calls each agent makes by itself, helpers too, and how many moves are made.
 * @param {import("../../memory/log.mjs").Log} log
 * @param {number} agents how many, without helpers
 */
function countsOf(log, agents) {
  const calls = Array.from({ length: agents }, () => 0);
  const helpers = new Helpers(agents);
  let moves = 0;
  for (let event = 0; event < log.length; event += 1) {
    const what = log.whatAt(event);
    if (what >= READ) continue;
    const agent = log.agentAt(event);
    const isEnd = what === LEAVE || what === TIME_UP;
    moves += MOVES[what];
    if (isAsync(log, event)) {
      const helper = isEnd ? helpers.end(agent, log.callAt(event)) : helpers.begin(agent, log.callAt(event));
      calls[helper] = (calls[helper] ?? 0) + (isEnd ? 1 : 2);
      calls[agent] += 1;
      moves += 2 * MOVES[MAKE];
    } else if (!isEnd) calls[agent] += 1;
  }
  return { calls, moves, helpers: helpers.count };
}

/**
 * @param {ReturnType<typeof countsOf>} counts
 * @returns {string | undefined} why a script can't have even the calls alone; undefined: it may
 */
function reasonAgainstCalls(counts) {
  if (counts.helpers > 0 && counts.calls.length > SCRIPT_LIMITS.agents) return TOO_MANY;
  if (reasonAgainst(counts, []) === undefined) return undefined;
  return counts.helpers > 0 ? BEYOND_WITH_HELPERS : BEYOND;
}

/**
 * Why a script can't have so many stores with an agent's own calls; undefined if it may.
 * @param {ReturnType<typeof countsOf>} counts
 * @param {Store[]} stores
 */
function reasonAgainst(counts, stores) {
  const { calls: mostCalls, moves: mostMoves } = SCRIPT_LIMITS;
  const calls = [...counts.calls];
  for (const { agent } of stores) calls[agent] = (calls[agent] ?? 0) + 1;
  const full = calls.findIndex((count) => count > mostCalls);
  if (full >= 0) return `agent ${full} would have more than ${mostCalls} calls`;
  const moves = counts.moves + stores.length * MOVES[MAKE];
  return moves > mostMoves ? `it would have more than ${mostMoves} moves` : undefined;
}

/**
 * A run's transcript and its script, or why it can't be one. If only names prevent that, the script has no names.
 * @param {import("./transcript.mjs").TranscriptSource} run
 * @param {Store[]} own
 * @param {Store[]} initial
 * @returns {{ transcript: Transcript, script?: string, noScript?: string }}
 */
function withScript(run, own, initial) {
  const transcript = transcriptOf(run, own, initial);
  const found = { transcript, ...spelled(transcript) };
  if (found.script !== undefined || (run.names ?? NO_NAMES).list.length === 0) return found;
  const unnamed = transcriptOf({ ...run, names: NO_NAMES, known: undefined }, own, initial);
  return { transcript: unnamed, ...spelled(unnamed) };
}

/**
 * A transcript's script, or why it can't be one.
 * @param {Transcript} transcript
 * @returns {{ script?: string, noScript?: string }}
 */
function spelled(transcript) {
  const { views, text } = SCRIPT_LIMITS;
  if (transcript.views.length > views) return { noScript: `it would have more than ${views} views` };
  const script = scriptText(transcript);
  return script.length > text ? { noScript: `it would be longer than ${text} bytes` } : { script };
}

/**
 * The bytes at the end as a script leaves them: bytes that a call touches are the run's; any other byte is what the
 * last store has left there.
 * @param {string[]} final
 * @param {Uint8Array[]} touched
 * @param {Store[]} stores
 */
function bytesLeft(final, touched, stores) {
  const blocks = final.map((hex, block) => {
    const bytes = Buffer.from(hex, "hex");
    for (let byte = 0; byte < bytes.length; byte += 1) bytes[byte] *= touched[block][byte];
    return bytes;
  });
  for (const store of stores) {
    for (let byte = store.byte; byte < endOf(store); byte += 1) {
      if (touched[store.block][byte] === 0) blocks[store.block][byte] = store.bytes[byte - store.byte];
    }
  }
  return blocks.map((bytes) => bytes.toString("hex"));
}

/**
 * The script of a run, with as much of the ordinary writes as fits.
 * @param {import("./transcript.mjs").TranscriptSource} run
 * @param {Pick<import("../../memory/stores.mjs").Stores, "list" | "isWhole" | "isLost">} stores
 * @param {Store[]} initial what fills the buffers before the run, by an agent of its own
 * @param {string[]} final the bytes of each block at the end, in hexadecimal digits
 * @returns {ScriptWithinLimits}
 */
export function scriptWithinLimits(run, stores, initial, final) {
  /** @type {Uint8Array[] | undefined} most runs don't need them */
  let marks;
  const touched = () => (marks ??= touchedBytes(run.log, run.lengths));
  /** @param {Store[]} list */
  const ofTouched = (list) => joined(list.filter((store) => isTouched(touched(), store)));
  const all = stores.list();
  /** @type {{ holds: "all" | "touched", list: () => Store[][] }[]} */
  const choices = [
    { holds: "all", list: () => [all, initial] },
    { holds: "all", list: () => [joined(all), joined(initial)] },
    { holds: "touched", list: () => [ofTouched(all), ofTouched(initial)] },
  ];
  /** @type {string | undefined} */
  let noScript = "too many ordinary writes were made to bytes that calls touch";
  if (stores.isLost()) return { transcript: transcriptOf(run, []), noScript };
  const counts = countsOf(run.log, run.canBlock.length);
  noScript = reasonAgainstCalls(counts);
  if (noScript !== undefined) return { transcript: transcriptOf(run, []), noScript };
  let isOfCallsAlone = true;
  for (const { holds, list } of stores.isWhole() ? choices : choices.slice(2)) {
    const [own, first] = list();
    isOfCallsAlone = own.length + first.length === 0;
    noScript = reasonAgainst(counts, [...first, ...own]);
    if (noScript !== undefined) continue;
    const { transcript, script, noScript: why } = withScript(run, own, first);
    noScript = why;
    if (script === undefined) continue;
    const bytes = holds === "all" ? final : bytesLeft(final, touched(), [...first, ...own]);
    return { transcript, script, holds, bytes };
  }
  // The calls alone fit, since the run ends at their limits; of a program they may have too many views, or be too long.
  const withMore = isOfCallsAlone ? UNSEEN : "the ordinary writes of bytes that calls touch";
  return { transcript: transcriptOf(run, []), noScript: `${noScript}, with ${withMore}` };
}
