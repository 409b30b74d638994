// What agents did that nobody saw, in words, and whether a run fails for it.

import { countText } from "./summary-words.mjs";

/** @typedef {import("../../memory/notes.mjs").Note & { agent: number }} AgentsNote */
/** @typedef {(place: string | undefined) => string} Naming the name of a place in the code, as people read it */

const ALLOW = "--unrecorded allow lets it pass";
const SYNCHRONOUS = "an agent must be synchronous, and talk to others through its buffers";

/** Why a run that fails for these has no script. */
export const NO_SCRIPT = "agents did what nobody saw";

/** @param {import("../../memory/notes.mjs").Note} note of memory @param {Naming} nameOf */
function usesText({ calls = 0, accesses = 0, first }, nameOf) {
  const both = [];
  if (calls > 0) both.push(countText(calls, "call of Atomics", "calls of Atomics"));
  if (accesses > 0) both.push(countText(accesses, "ordinary read or write", "ordinary reads and writes"));
  if (both.length === 0) return "";
  return ` (${both.join(", ")}${first === undefined ? "" : `, the first at ${nameOf(first)}`})`;
}

/** @param {string} what @param {string | undefined} place @param {Naming} nameOf */
const madeAt = (what, place, nameOf) => (place === undefined ? what : `${what}, made at ${nameOf(place)}`);

/** @param {AgentsNote} note @param {Naming} nameOf */
function memoryText(note, nameOf) {
  const { agent, what, place, waits } = note;
  const does = waits === undefined ? "uses" : `would wait${waits === "" ? "" : ` at ${nameOf(waits)}`} on`;
  const own = madeAt(`${what} of its own`, place, nameOf);
  return `agent ${agent} ${does} ${own}, which isn't recorded${usesText(note, nameOf)}: `
    + `hand the class \`buffers[0]\` in place of it; ${ALLOW}`;
}

/** @typedef {Exclude<import("../../memory/notes.mjs").NoteKind, "real">} UnseenKind */

/** @type {Record<UnseenKind, (note: AgentsNote, nameOf: Naming) => string>} */
const TEXTS = {
  memory: memoryText,
  wasm: ({ agent, what, place }, nameOf) =>
    `agent ${agent} has ${madeAt(what, place, nameOf)}, which isn't recorded: `
    + `nobody sees what is done with it; ${ALLOW}`,
  given: ({ agent, what, place }, nameOf) =>
    `agent ${agent} gave memory or a port to another thread, by ${what} at ${nameOf(place)}: `
    + `nobody sees what that thread does; ${ALLOW}`,
  thread: ({ agent, what, place }, nameOf) =>
    `agent ${agent} works with another thread, by ${what} at ${nameOf(place)}: `
    + `nobody sees what that thread does; ${ALLOW}`,
  message: ({ agent, what, place }, nameOf) =>
    `agent ${agent} calls ${what} at ${nameOf(place)}, but nobody takes its messages: ${SYNCHRONOUS}`,
  listener: ({ agent, what, place }, nameOf) =>
    `agent ${agent} listens for messages, by ${what} at ${nameOf(place)}, but never gets one: ${SYNCHRONOUS}`,
};

const NEVER_ALLOWED = ["message", "listener"];

/**
 * Why a run fails for what agents did unseen.
 * @param {AgentsNote[]} notes
 * @param {"fail" | "allow"} unrecorded
 * @param {Naming} nameOf
 * @returns {string} a line for each note, those of agents that would wait first; empty if it doesn't fail for them
 */
export function unseenText(notes, unrecorded, nameOf) {
  if (notes.length === 0) return "";
  const failing = unrecorded === "fail" ? notes : notes.filter(({ kind }) => NEVER_ALLOWED.includes(kind));
  const sorted = [...failing];
  sorted.sort((one, other) => Number(other.waits !== undefined) - Number(one.waits !== undefined));
  return sorted.map((note) => TEXTS[/** @type {keyof typeof TEXTS} */ (note.kind)](note, nameOf)).join("\n");
}

/**
 * What agents used or reached that isn't recorded, for a summary. It doesn't say which agent, nor how often.
 * @param {AgentsNote[]} notes
 * @param {Naming} nameOf
 * @returns {string[]} each once
 */
export function unrecordedIn(notes, nameOf) {
  if (notes.length === 0) return [];
  const texts = notes.flatMap(({ kind, what, place }) => {
    if (NEVER_ALLOWED.includes(kind)) return [];
    if (kind === "memory" || kind === "wasm") return [madeAt(what, place, nameOf)];
    return [`another thread, by ${what} at ${nameOf(place)}`];
  });
  return [...new Set(texts)].sort();
}

/**
 * What a program has used that the machine answers, for a summary.
 * @param {AgentsNote[]} notes
 * @param {Naming} nameOf
 * @returns {string[]} each once
 */
export const realIn = (notes, nameOf) =>
  [...new Set(notes.map(({ what, place }) => `${what} at ${nameOf(place)}`))].sort();
