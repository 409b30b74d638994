// A realm whose typed arrays are watched, for tests in a worker: what is tried on a recorded buffer is tried on a plain
// one too, and the accesses that `seen` gets are collected.

import { syncBuiltinESMExports } from "node:module";
import { watchOrdinary } from "../../lib/agent/ordinary/watch.mjs";
import { unwrapped } from "../../lib/agent/ordinary/watched.mjs";
import { CONSTRUCTORS, KINDS as ALL_KINDS } from "../../script/kinds.mjs";

export { unwrapped };

/** The kinds that this engine has, and the number of a place that is a DataView. */
export const KINDS = ALL_KINDS.slice(0, CONSTRUCTORS.length);
export const DATA_VIEW = ALL_KINDS.length;
export const BYTES = 64;

const EngineBytes = CONSTRUCTORS[KINDS.indexOf("Uint8")];

/** What ends a run. */
export class Refusal extends Error {}
/** What `seen` throws, where a run is over. */
export class Over extends Error {}

const recorded = [];
/** What `seen` got: each byte that was read or written, and the place of each access. */
const collected = { reads: new Set(), writes: new Set(), places: [], isOn: false, isOver: false };

const { apply } = Reflect;
const { add } = Set.prototype;

// Some cases replace what the language has, so none of it is used here.
watchOrdinary({
  blockOf: (buffer) => (buffer === recorded[0] && recorded.length > 0 ? 0 : -1),
  seen: (place, from, to, writes) => {
    if (!collected.isOn) return;
    if (collected.isOver) throw new Over();
    collected.places[collected.places.length] = place;
    for (let byte = from; byte < to; byte += 1) apply(add, collected[writes ? "writes" : "reads"], [byte]);
  },
  refuse: (why) => {
    throw new Refusal(why);
  },
});
syncBuiltinESMExports();

// Agents have an Atomics of the recorder's; here it is the engine's.
const EngineAtomics = Atomics;
globalThis.Atomics = Object.fromEntries(Object.getOwnPropertyNames(EngineAtomics).map((name) => [
  name, (view, ...given) => EngineAtomics[name](unwrapped(view), ...given),
]));

/** A buffer whose bytes are small and differ. */
function filledBuffer() {
  const buffer = new SharedArrayBuffer(BYTES);
  const bytes = new EngineBytes(buffer);
  for (let byte = 0; byte < BYTES; byte += 1) bytes[byte] = (byte * 7 + 3) % 64;
  return buffer;
}

const hexOf = (buffer) => Buffer.from(new EngineBytes(buffer).slice().buffer).toString("hex");

/** Collects nothing while this runs, since its accesses are the test's own. */
function quietly(body) {
  const { isOn } = collected;
  collected.isOn = false;
  const answer = body();
  collected.isOn = isOn;
  return answer;
}

/**
 * A value as a text, so that those of two trials can be compared.
 * @param {any} value
 * @param {object} self what was tried; it stands for itself
 * @returns {string}
 */
function described(value, self) {
  if (value === self) return "itself";
  if (Object.is(value, -0)) return "-0";
  if (typeof value === "bigint") return `${value}n`;
  if (typeof value === "string") return JSON.stringify(value);
  if (typeof value === "function") return `function ${value.name} ${value.length}`;
  if (typeof value !== "object" || value === null) return String(value);
  if (value instanceof SharedArrayBuffer) return `buffer of ${value.byteLength}`;
  if (value instanceof DataView) return `view of ${value.byteLength} at ${value.byteOffset}`;
  const inner = value instanceof Map || value instanceof Set ? [...value] : value;
  const names = Object.keys(inner).map((name) => `${name}: ${described(inner[name], self)}`);
  return `${value.constructor?.name ?? "no"} of ${value.length} {${names.join(", ")}}`;
}

/**
 * @typedef {object} Trial the result of something that was tried
 * @property {string} answer or the name of what was thrown
 * @property {unknown} value
 * @property {string} bytes in the end
 * @property {Set<number>} reads
 * @property {Set<number>} writes
 * @property {object[]} places
 */

/**
 * Tries something on a buffer.
 * @param {boolean} isRecorded
 * @param {(buffer: SharedArrayBuffer) => any} make what it is tried on
 * @param {(made: any, buffer: SharedArrayBuffer) => unknown} body
 * @returns {Trial}
 */
function tried(isRecorded, make, body) {
  const buffer = filledBuffer();
  recorded.length = 0;
  if (isRecorded) recorded.push(buffer);
  Object.assign(collected, { reads: new Set(), writes: new Set(), places: [] });
  const before = hexOf(buffer);
  const made = make(buffer);
  let value;
  let answer;
  collected.isOn = true;
  try {
    value = body(made, buffer);
    answer = quietly(() => described(value, made));
  } catch (error) {
    collected.isOn = false;
    if (error instanceof Refusal) throw error;
    answer = `throws ${error.name}`;
    value = error;
  }
  collected.isOn = false;
  const bytes = hexOf(buffer);
  return { answer, value, bytes, reads: collected.reads, writes: collected.writes, places: collected.places, before };
}

/** The first byte that has changed and of which `seen` got no write, or -1. */
function unseenWrite({ before, bytes, writes }) {
  for (let byte = 0; byte < BYTES; byte += 1) {
    const isSame = before.slice(2 * byte, 2 * byte + 2) === bytes.slice(2 * byte, 2 * byte + 2);
    if (!isSame && !writes.has(byte)) return byte;
  }
  return -1;
}

const listed = (set) => [...set].sort((one, other) => one - other).join(" ");

/**
 * Tries the same on a recorded buffer and on a plain one.
 * @param {(buffer: SharedArrayBuffer) => any} make
 * @param {(made: any, buffer: SharedArrayBuffer) => unknown} body
 * @param {{ reads?: number[], writes?: number[], works?: boolean }} [wanted] the bytes that must be seen, and whether
 *   the plain one must not throw
 * @returns {string | undefined} what is wrong
 */
export function difference(make, body, wanted) {
  let watched;
  const plain = tried(false, make, body);
  try {
    watched = tried(true, make, body);
  } catch (error) {
    return `was refused: ${error.message}`;
  }
  if (wanted?.works && plain.answer.startsWith("throws")) return `${plain.answer}: ${plain.value.stack}`;
  if (watched.answer !== plain.answer) {
    return `answers ${watched.answer} ${watched.value?.stack ?? ""}, not ${plain.answer}`;
  }
  if (watched.bytes !== plain.bytes) return `leaves ${watched.bytes}, not ${plain.bytes}`;
  const byte = unseenWrite(watched);
  if (byte >= 0) return `wrote byte ${byte} unseen`;
  for (const what of ["reads", "writes"]) {
    if (wanted?.[what] === undefined) continue;
    const [is, should] = [listed(watched[what]), listed(new Set(wanted[what]))];
    if (is !== should) return `${what} ${is || "none"}, not ${should || "none"}`;
  }
  return undefined;
}

/**
 * Tries something on a recorded buffer that has to be refused.
 * @param {(buffer: SharedArrayBuffer) => any} make
 * @param {(made: any, buffer: SharedArrayBuffer) => unknown} body
 * @param {boolean} [hasWayOut] whether another option lets it pass, which must be named then, and else mustn't
 * @returns {string | undefined} what is wrong
 */
export function notRefused(make, body, hasWayOut = true) {
  try {
    const { answer } = tried(true, make, body);
    return `wasn't refused: ${answer}`;
  } catch (error) {
    if (!(error instanceof Refusal)) return `${error}`;
    if (error.message.includes("--ordinary store") === hasWayOut) return undefined;
    return `names ${hasWayOut ? "no" : "a"} way out: ${error.message}`;
  }
}

/**
 * Tries something on a recorded buffer while a run is over.
 * @param {(buffer: SharedArrayBuffer) => any} make
 * @param {(made: any, buffer: SharedArrayBuffer) => unknown} body
 * @returns {string | undefined} what is wrong
 */
export function doneThough(make, body) {
  collected.isOver = true;
  const { answer, value, before, bytes } = tried(true, make, body);
  collected.isOver = false;
  if (!(value instanceof Over)) return `goes on: ${answer}`;
  return bytes === before ? undefined : `leaves ${bytes}, not ${before}`;
}

/** What was collected when something was tried on a recorded buffer. */
export const collectedOf = (make, body) => tried(true, make, body);

/** Numbers from one to another, the last one left out. */
export const range = (from, to) => Array.from({ length: Math.max(to - from, 0) }, (_, at) => from + at);

/**
 * The bytes of elements.
 * @param {{ at: number, size: number }} array where it begins, and the bytes of an element
 * @param {number[]} indexes
 */
export const bytesOf = ({ at, size }, indexes) =>
  indexes.flatMap((index) => range(at + index * size, at + index * size + size));
