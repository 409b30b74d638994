// The facts of a run in the words of `sabsim replay --format explained`, from what `--format json` prints about it.
// This code runs in pages and in tests.

import { handOverOf } from "../script/helpers.mjs";

/** @typedef {import("../schedule/report-entries.mjs").ReportEntry} ReportEntry */
/** @typedef {import("../script/text.mjs").View} View */

/**
 * @typedef {object} Known what an entry's words depend on besides the entry
 * @property {Map<string, View>} views by their names
 * @property {(number | undefined)[]} waits for each agent, the entry of its last wait
 */

/**
 * What a call takes, returns or finds: a string of digits is a BigInt.
 * @param {unknown} value
 */
export const valueText = (value) => (typeof value === "string" && /^-?\d+$/.test(value) ? `${value}n` : `${value}`);

/** @param {(string | number)[]} does @returns {string} a call as JavaScript writes it */
export const callText = ([name, view, ...others]) => `${name}(${[view, ...others.map(valueText)].join(", ")})`;

/**
 * A notify by which a thread and its helper hand a wait of waitAsync over.
 * @param {ReportEntry} entry
 * @returns {string | undefined} undefined: it is another call
 */
export function handOverText({ agent, does }) {
  const found = handOverOf(does);
  if (found === undefined) return undefined;
  const { helper, owner, begins } = found;
  const hands = begins ? "hands its waitAsync to" : "gets the end of its waitAsync from";
  if (agent === owner) return `${hands} agent ${helper}`;
  return `${begins ? "takes" : "hands back"} the waitAsync of agent ${owner}`;
}

/** @param {(string | number)[]} does @returns {string} the element that a call names */
export const viewElementText = ([, view, index]) => `${view}[${index}]`;

// More changes of one step are only counted.
const MOST_CHANGES = 8;

/** @param {import("./elements.mjs").Change[]} changes @returns {string} what an ordinary write has changed */
export function changesText(changes) {
  if (changes.length === 0) return "changes nothing";
  const shown = changes.slice(0, MOST_CHANGES).map(({ name, before, after }) => `${name} from ${before} to ${after}`);
  const more = changes.length - shown.length;
  return `changes ${shown.join(", ")}${more > 0 ? ` and ${more} more` : ""}`;
}

/** @param {number} count @param {string} one @param {string} several */
export const counted = (count, one, several) => `${count} ${count === 1 ? one : several}`;

/**
 * Why a call throws, by the first check that fails.
 * @param {ReportEntry} entry
 * @param {Known} known
 */
function failureText({ agent, does, found = {}, answer }, { views }) {
  const [name, view] = does;
  const { kind = "", length = 0 } = views.get(`${view}`) ?? {};
  const waits = name === "wait" || name === "notify";
  switch (found.failed) {
    case "kind": return `${view} is ${kind}, ${waits ? "not Int32 or BigInt64" : "which Atomics doesn't take"}`;
    case "index": return `${view} has ${counted(length, "element", "elements")}`;
    case "operand": return `${view} takes ${kind.startsWith("Big") ? "BigInts" : "Numbers"}`;
    case "can-block": return `agent ${agent} can't block`;
    default: return `${answer}`;
  }
}

/**
 * Whom a notify wakes.
 * @param {ReportEntry} entry
 * @param {Known} known
 */
function notifyText({ does, found = {} }, { waits }) {
  const element = viewElementText(does);
  const { waited, woken } = /** @type {{ waited: number, woken: number[] }} */ (found);
  if (waited === 0) return `wakes nobody: nobody waits at ${element}`;
  if (woken.length === 0) {
    return `wakes nobody: its count is below 1, and ${counted(waited, "agent waits", "agents wait")} at ${element}`;
  }
  const whom = woken.length === 1
    ? `agent ${woken[0]}, which waited at ${element} since ${waits[woken[0]]}`
    : `agents that waited at ${element}: ${woken.map((agent) => `${agent} since ${waits[agent]}`).join(", ")}`;
  const left = waited - woken.length;
  return left === 0 ? `wakes ${whom}` : `wakes ${whom}; ${counted(left, "still waits", "still wait")}`;
}

/** @param {ReportEntry} entry @param {Known} known @returns {string} what an act did */
function actText(entry, known) {
  const { does, answer, found = {} } = entry;
  const element = viewElementText(does);
  const [before, after] = [valueText(found.before), valueText(found.after)];
  if (answer === "TypeError" || answer === "RangeError") return `throws: ${failureText(entry, known)}`;
  switch (does[0]) {
    case "load": return `reads ${valueText(found.element)}`;
    case "wait": return `doesn't wait, ${element} is ${valueText(found.element)}`;
    case "notify": return notifyText(entry, known);
    case "compareExchange":
      if (!found.exchanged) return `fails, ${element} is ${after}`;
      if (before === after) return `exchanges, ${element} stays ${after}`;
      break;
    default:
      if (before === after) return `leaves ${element} at ${after}`;
  }
  return `changes ${element} from ${before} to ${after}`;
}

/**
 * Why an agent couldn't move.
 * @param {ReportEntry} entry
 * @param {Known} known
 */
function stuckText({ agent, call, why, does, since, found = {} }, { waits }) {
  if (does.length === 0) return call === 0 ? "it has no calls" : "all its calls have returned";
  const [element, wait] = [viewElementText(does), waits[agent] ?? since];
  switch (why) {
    case "waiting": return `waits at ${element} since ${wait}, in ${callText(does)}`;
    case "endless": return `waits at ${element} since ${wait}, and ${callText(does)} has no timeout`;
    default:
      return found.woken_by === undefined ? "doesn't wait" : `doesn't wait any more: it was woken by ${found.woken_by}`;
  }
}

/**
 * The words of an entry: of an act, a wait or the end of one. For a begin and a return they say only that.
 * @param {ReportEntry} entry
 * @param {Known} known
 * @returns {string}
 */
export function entryText(entry, known) {
  const { does, what, answer, found = {}, since } = entry;
  const call = callText(does);
  switch (what) {
    case "begin": return `calls ${call}`;
    case "return": return /Error$/.test(`${answer}`) ? `throws out of ${call}` : `returns from ${call}`;
    case "wait": return `${call} waits at ${viewElementText(does)}${placeInLine(found.ahead)}`;
    case "leave":
      if (answer === "ok") return `${call} was woken by ${found.woken_by}`;
      return `${call} times out after waiting at ${viewElementText(does)} since ${since}`;
    case "stuck": return stuckText(entry, known);
    default: return `${call} ${actText(entry, known)}`;
  }
}

/** @param {number[]} ahead the agents before one in line */
function placeInLine(ahead) {
  if (ahead.length === 0) return ", first in line";
  return ` behind ${ahead.length === 1 ? "agent" : "agents"} ${ahead.join(", ")}`;
}

/**
 * How far an agent came whose calls haven't all returned.
 * @param {Record<string, any>} standing as `--format json` prints it
 * @returns {string}
 */
export function standingText({ at, does, since, notified, woken_by: by }) {
  const call = callText(does);
  switch (at) {
    case "ready": return `hasn't begun ${call}`;
    case "begun": return `began ${call} at ${since} and hasn't acted`;
    case "woken": return `was woken by ${by} and hasn't left ${call}`;
    case "waits": {
      const element = viewElementText(does);
      const since0 = `waits at ${element} since ${since}, in ${call}`;
      return notified
        ? `${since0}; ${element} was notified since, waking others or nobody`
        : `${since0}; nobody has notified ${element} since`;
    }
    default: return `hasn't returned from ${call}`;
  }
}
