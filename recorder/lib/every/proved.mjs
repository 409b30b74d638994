// The proved search of a file of automata: by the simulator's module in a thread of its own, or by the native program
// if one is chosen.

import { begunThread } from "../processes/thread.mjs";
import { NativeSimulator } from "../simulator/native.mjs";
import { MOST_OF_AUTOMATA } from "../../script/limits.mjs";
import { NotAsLearned } from "./not-as-learned.mjs";
import { resultIn, statusOf } from "./search/lines.mjs";

/** @typedef {import("./search/file.mjs").FileData} FileData */
/** @typedef {import("./search/result.mjs").Result} Result */
/** @typedef {import("../simulator/module.mjs").SimulatorSearchResult} SimulatorSearchResult */
/** @typedef {import("../processes/thread.mjs").Thread} Thread */

/**
 * @typedef {object} ProvedSearchLimits
 * @property {import("./search/search.mjs").Choice} timeouts
 * @property {number} limit how many states at most
 * @property {number} size about how many bytes what is found has as JSON
 * @property {string} [program] the path of the native program, if it is to search
 * @property {AbortSignal} [signal]
 * @property {Thread} [thread] that was begun for the search by the module
 */

/** The proved search couldn't search: the message says why. */
export class NotSearched extends Error {}

const SEARCHING = new URL("./proved-worker.mjs", import.meta.url);

/** What a file may have at most (docs/FORMATS.md). */
const MOST_NODES = 262_144;
const MOST_EDGES = 65_536;
const MOST_VIEWS = 64;

/** Room besides what the other search has found. */
const MORE_ROOM = 2 ** 20;

const OUT_OF_MEMORY = 4;
const NO_MEMORY = "there is no memory for it";

/**
 * @param {FileData} data
 * @param {ProvedSearchLimits} bounds
 * @returns {Promise<Result>}
 * @throws {NotSearched | NotAsLearned}
 */
export async function provedSearch(data, { timeouts, limit, size, program, signal, thread }) {
  const text = JSON.stringify(data);
  needSmall(data, text);
  const job = /** @type {const} */ ({ timeouts, limit, format: "json" });
  const ended = program === undefined
    ? await byModule({ job, text, room: 2 * size + MORE_ROOM }, signal, thread)
    : await new NativeSimulator(program).search(job, text, signal);
  return resultOf(ended);
}

/** @param {FileData} data @param {string} text of the file @throws {NotSearched} if no file may be so large */
function needSmall({ automata, views }, text) {
  const nodes = automata.flatMap(({ nodes: own }) => own);
  const bytes = new TextEncoder().encode(text).length;
  const edges = nodes.reduce((most, { edges: own = [] }) => Math.max(most, own.length), 0);
  for (const [many, most, what] of /** @type {[number, number, string][]} */ ([
    [bytes, MOST_OF_AUTOMATA, "bytes"], [nodes.length, MOST_NODES, "nodes"],
    [edges, MOST_EDGES, "edges of a node"], [views.length, MOST_VIEWS, "arrays"],
  ])) {
    if (many > most) throw new NotSearched(`the automata are too large for it: ${many} ${what}, and ${most} at most`);
  }
  const strange = nodes.some(({ threw }) => threw !== undefined && !threw.isWellFormed());
  if (strange) throw new NotSearched("what an agent threw is no text in UTF-8");
}

/** @returns {Thread} one that searches, once it is given what: it loads the recorder's modules ahead of that */
export function beginSearch() {
  const thread = begunThread(SEARCHING);
  thread.giveAhead(SEARCHING);
  return thread;
}

/**
 * @param {import("./proved-worker.mjs").ProvedSearchWorkerData} given
 * @param {AbortSignal} [signal]
 * @param {Thread} [thread]
 * @returns {Promise<SimulatorSearchResult>}
 */
async function byModule(given, signal, thread = beginSearch()) {
  const stop = () => void thread.stop();
  signal?.addEventListener("abort", stop);
  thread.give(SEARCHING, given);
  try {
    const { message, ended } = await thread.next();
    const failed = message?.failed ?? ended;
    if (failed === undefined) return message.ended;
    throw signal?.reason ?? new NotAsLearned(`the proved search failed: ${failed}`);
  } finally {
    signal?.removeEventListener("abort", stop);
    await thread.stop();
  }
}

/** @param {SimulatorSearchResult} ended @returns {Result} */
function resultOf({ status, output, complaint, leftOut }) {
  if (status === OUT_OF_MEMORY) throw new NotSearched(NO_MEMORY);
  if (leftOut > 0) throw new NotAsLearned(`the proved search has found ${leftOut} bytes more than there was room for`);
  const failed = complaint === "" ? `it ended with status ${status}` : complaint.trim();
  let result;
  try {
    result = resultIn(output);
  } catch (problem) {
    const why = output === "" ? failed : /** @type {Error} */ (problem).message;
    throw new NotAsLearned(`the proved search failed: ${why}`);
  }
  if (statusOf(result) !== status) throw new NotAsLearned(`the proved search failed: ${failed}`);
  if (result.why !== undefined) throw new NotSearched(NO_MEMORY);
  return result;
}
