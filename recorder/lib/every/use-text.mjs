// The first lines about every use of an object.

import { countText } from "../run/words/summary-words.mjs";

/** @typedef {import("./data.mjs").EveryData} EveryData */
/** @typedef {import("./data.mjs").FoundData} FoundData */
/** @typedef {import("./data.mjs").ObjectUsesData} ObjectUsesData */
/** @typedef {import("./every-use.mjs").UseSize} UseSize */

/** What is about the history of an object, and not about what its agents do besides. */
export const OF_HISTORIES = new Set(["not linearizable", "lost wake-up"]);

const AS_ITSELF = "what is right is the object as itself, used by one agent alone";

const AS_AGENT_0 = "what is right is the object as itself, used by agent 0 alone: it looks at its agent's number";

const TOO_MANY = "it needs more than 65,536 states of what is right, or 100,000 configurations";

/** @param {UseSize} size @returns {string} */
function sizeText({ agents, each }) {
  if (each === "any") return `by ${countText(agents, "agent")} with any number of operations each`;
  return `by ${countText(agents, "agent")} with up to ${countText(each, "operation")} each`;
}

/** @param {UseSize[]} sizes @returns {UseSize[]} of each number of agents the one with the most operations */
function largestOf(sizes) {
  /** @type {Map<number, UseSize>} */
  const largest = new Map();
  for (const size of sizes) largest.set(size.agents, size);
  return [...largest.values()].sort((one, other) => one.agents - other.agents);
}

/** @param {UseSize} size @returns {string} the same behind another one */
const furtherText = ({ agents, each }) => `by ${agents} with ${each === "any" ? "any number" : `up to ${each}`}`;

/** @param {UseSize[]} sizes that were finished @returns {string} */
export function sizesText(sizes) {
  const [first, ...others] = largestOf(sizes);
  const further = others.map(furtherText);
  if (further.length === 0) return `every use ${sizeText(first)}`;
  const last = further.pop();
  return `every use ${[sizeText(first), ...further].join(", ")}, and ${last},`;
}

/** @param {ObjectUsesData} uses @returns {string} what is right, in words */
function rightText({ alwaysThrow, hasModel, looksAtNumber }) {
  const itself = looksAtNumber ? AS_AGENT_0 : AS_ITSELF;
  const what = hasModel ? "`Model` says what is right" : itself;
  if (alwaysThrow.length === 0) return what;
  return `${what}; ${alwaysThrow.join(", ")} always ${alwaysThrow.length === 1 ? "throws" : "throw"} there`;
}

/** @param {EveryData & { uses: ObjectUsesData }} data of a search in which nothing was found @returns {string[]} */
export function rightLines({ uses }) {
  const tried = `${sizesText(uses.finished)} was tried under every schedule`;
  const title = `${tried}: all are linearizable, and no wake-up is lost (${rightText(uses)})`;
  return uses.open === null ? [title] : [title, `  not every use ${sizeText(uses.next)} was tried: ${uses.open}`];
}

/** @param {FoundData} found @returns {string} how it is shown */
function shownText({ acts, changes, detail }) {
  const by = `${countText(acts, "act")} with ${countText(changes, "change")} of agents`;
  return detail === null ? `the first one after ${by}` : `shown by ${by}`;
}

/**
 * @param {EveryData & { uses: ObjectUsesData }} data
 * @param {FoundData} found about the history
 * @returns {string[]} lines
 */
export function historyLines({ agents, uses }, found) {
  const { detail, kind, notShown, onlyIf, operations, text } = found;
  const use = `${countText(agents, "agent")}, ${countText(operations, "operation")}`;
  const lines = (detail ?? text.split("\n")).map((line) => `  ${line}`);
  const rests = [
    ...(detail === null ? [`  not shown by a real run: ${notShown}`] : []), ...(onlyIf === null ? [] : [`  ${onlyIf}`]),
  ];
  return [`${kind}: ${use}; ${shownText(found)}`, ...lines, ...rests, `  (${rightText(uses)})`];
}

/** @param {EveryData & { uses: ObjectUsesData }} data @returns {string[]} about the monitor */
export function monitorLines({ uses: { modelStates, notJudged, sets } }) {
  const model = `${countText(modelStates, "state")} of what is right`;
  const counts = `${model}, and ${countText(sets, "set")} of what operations may have done`;
  if (notJudged === 0) return [counts];
  return [counts, `in ${countText(notJudged, "state")} the history wasn't judged: ${TOO_MANY}`];
}
