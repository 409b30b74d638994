// The page of a run, `seed-N.html`: one file for a browser, which needs no other and no network. Its code and its looks
// are in the folder `page`. Here they are joined with what sabsim prints about the run, its trace and the agents' code,
// and with the simulator, if its module is there.

import { endingText } from "../../page/endings.mjs";
import { builtSimulator, documentOf } from "./document.mjs";
import { eventsInScript, helperNames } from "./helper-events.mjs";
import { sendersIn } from "./message-senders.mjs";
import { placedIn, windowTexts } from "./window-texts.mjs";

/** @typedef {import("../run/outcome.mjs").Outcome} Outcome */
/** @typedef {import("../../page/run-data.mjs").RunData} RunData */

// If a trace has more events, its ordinary accesses are left out, except those that race.
const MOST_EVENTS = 20_000;

/**
 * @param {string} text lines of JSON
 * @returns {any[]}
 * @throws {SyntaxError}
 */
const objectsOf = (text) => text.split("\n").filter((line) => line !== "").map((line) => JSON.parse(line));

/**
 * What distinguishes an access of a trace, and a side of a race, from others.
 * @param {any} access
 */
const keyOf = ({ agent, block, byte, size, atomic, call, source, read, write, access = accessOf(read, write) }) =>
  [agent, block, byte, size, atomic, call, source, access].join(" ");

/**
 * The name that a side of a race has for an access.
 * @param {boolean} read
 * @param {boolean} write
 */
function accessOf(read, write) {
  if (read && write) return "read and write";
  return write ? "write" : "read";
}

/**
 * The events of each race: for each side the first access that is like it.
 * @param {Outcome} outcome
 * @param {any[]} events
 * @returns {any[][]}
 */
function racingEvents({ races, windows }, events) {
  const first = new Map();
  if (races.length === 0) return [];
  for (const event of events) {
    const key = keyOf(event);
    if (!first.has(key)) first.set(key, event);
  }
  const pairs = races.map(({ sides }) => sides.map((side) => first.get(keyOf(placedIn(windows, side)))));
  return pairs.filter((pair) => !pair.includes(undefined));
}

/**
 * The events that a page shows.
 * @param {any[]} events
 * @param {any[][]} racing
 */
function shownEvents(events, racing) {
  if (events.length <= MOST_EVENTS) return events;
  const kept = new Set(racing.flat());
  return events.filter((event) => (event.does !== "read" && event.does !== "write") || kept.has(event));
}

/**
 * @param {{ event: number }[]} events in their order
 * @param {number} event
 * @returns {number} how many of them come before an event
 */
function countBefore(events, event) {
  const at = events.findIndex((other) => other.event >= event);
  return at < 0 ? events.length : at;
}

/**
 * What the page of a run is made from.
 * @param {Outcome} outcome that has a script
 * @param {string} facts what `sabsim replay --format json` writes about it
 * @param {string} module the URL of the agents' module
 * @returns {RunData}
 */
export function runDataOf(outcome, facts, module) {
  const { seed, ending, windows, script = "{}", trace = "", sources = [], scriptHolds: holds = "all" } = outcome;
  const detail = [outcome.detail, outcome.onlyIf ?? ""].filter((text) => text !== "").join("\n");
  const { blocks, views } = JSON.parse(script);
  const { arrays, made } = outcome.accesses ?? { arrays: [], made: [] };
  const accesses = new Map(made.map(([event, array, value]) => [event, { array, value: value ?? undefined }]));
  const objects = objectsOf(facts);
  const entries = objects.filter(({ what }) => what === "act" || what === "wait" || what === "leave");
  // The first line may say that accesses are missing.
  const all = eventsInScript(objectsOf(trace).filter(({ event }) => event !== undefined), entries);
  const racing = racingEvents(outcome, all);
  const events = shownEvents(all, racing);
  const numbers = new Map(events.map((event, at) => [event, at]));
  const tasks = (outcome.tasks ?? []).map((task) => ({ ...task, before: countBefore(events, task.event) }));
  const places = [...new Set([...events, ...tasks].map(({ source }) => source))].filter((source) => source !== null);
  const placeNumbers = new Map(places.map((place, at) => [place, at]));
  const file = decodeURIComponent(module.replace(/[?#].*$/, "").replace(/^.*\//, ""));
  const { threads } = outcome;
  const helpers = helperNames(views, threads ?? [], file);
  return {
    ...(threads === undefined ? {} : { threads: [...threads, ...helpers], senders: sendersIn(entries) }),
    ...(windows === undefined ? {} : { windows: windowTexts(windows) }),
    seed, ending, detail, holds, blocks, views, arrays, places, files: sources, script, module: file,
    agents: outcome.progress.length + helpers.length,
    isWhole: events.length === all.length,
    entries,
    standings: objects.filter(({ standing }) => standing !== undefined),
    events: events.map(({ event, agent, call, does, block, byte, size, read, write, source, inScript }) => {
      const place = placeNumbers.get(source) ?? -1;
      return { agent, call, does, block, byte, size, read, write, place, ...inScript, ...accesses.get(event) };
    }),
    ...(tasks.length === 0 ? {} : { tasks: tasks.map(({ before, agent, text, source }) =>
      ({ before, agent, text, place: placeNumbers.get(source) ?? -1 })) }),
    ...(outcome.messages === undefined || outcome.messages.length === 0 ? {} : { messages: outcome.messages }),
    races: /** @type {[number, number][]} */ (racing.map((pair) => pair.map((event) => numbers.get(event)))),
  };
}

/**
 * @param {RunData} data
 * @param {import("./document.mjs").SimulatorParts} [simulator] undefined: the page can't change the schedule
 * @returns {string} the page
 */
export function pageOfData(data, simulator) {
  const { script, ...rest } = data;
  const shown = simulator === undefined ? rest : data;
  const title = `seed ${data.seed} of ${data.module}: ${endingText(data.ending, data.detail)}`;
  return documentOf("page", title, shown, simulator);
}

/**
 * The page of a run.
 * @param {Outcome} outcome that has a script
 * @param {string} facts what `sabsim replay --format json` writes about it
 * @param {string} module the URL of the agents' module
 * @param {Pick<RunData, "about" | "command">} made how the run was made
 * @throws {SyntaxError} if the facts are no JSON
 */
export function pageOfRun(outcome, facts, module, made) {
  return pageOfData({ ...runDataOf(outcome, facts, module), ...made }, builtSimulator());
}
