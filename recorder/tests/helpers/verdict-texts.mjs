// What `sabsim judge --trace` must write about what the slow judge has found.

/** @typedef {ReturnType<typeof import("./slow-judge.mjs").slowJudge>} Judged */
/** @typedef {import("./slow-judge.mjs").Side} Side */

const MOST_LISTED = 100;
const NO_RACE = 0;
const RACES = 5;

/**
 * The status that the program ends with.
 * @param {Judged} judged
 */
export const statusOf = ({ races }) => (races.length === 0 ? NO_RACE : RACES);

/**
 * With `--format json`.
 * @param {Judged} judged
 * @returns {string}
 */
export function jsonText({ accesses, agents, races }) {
  const listed = races.slice(0, MOST_LISTED);
  const data_races = dataRacesIn(races);
  const more = races.length - listed.length;
  const last = { accesses, agents, data_races, judged: "a trace", more, races: listed.length };
  return [...listed, last].map((each) => `${JSON.stringify(each)}\n`).join("");
}

/**
 * In plain words.
 * @param {Judged} judged
 * @returns {string}
 */
export function plainText({ accesses, agents, races }) {
  if (races.length === 0) return `no data race: ${accessesOf(accesses)} by ${agentsOf(agents)}\n`;
  const lines = races.slice(0, MOST_LISTED).map(raceLine);
  const left = races.slice(MOST_LISTED);
  if (left.length > 0) lines.push(`${left.length} more, ${leftDataRaces(dataRacesIn(left))}`);
  return lines.map((line) => `${line}\n`).join("");
}

/** @param {Judged["races"]} races */
const dataRacesIn = (races) => races.filter((race) => race.data_race).length;

/** @param {number} count */
const leftDataRaces = (count) => (count === 1 ? "1 of them a data race" : `${count} of them data races`);

/** @param {number} count */
const accessesOf = (count) => (count === 1 ? "1 access" : `${count} accesses`);

/** @param {number} count */
const agentsOf = (count) => (count === 1 ? "1 agent" : `${count} agents`);

/** @param {number} byte the first @param {number} size how many */
const bytesOf = (byte, size) => (size === 1 ? `byte ${byte}` : `bytes ${byte} to ${byte + size - 1}`);

/** @param {Side} side */
function verbOf({ read, write }) {
  if (read && write) return "changes";
  return write ? "writes" : "reads";
}

/** @param {Side} side */
const sideText = (side) =>
  `agent ${side.agent} ${verbOf(side)} ${bytesOf(side.byte, side.size)}${side.atomic ? " by Atomics" : ""} ` +
  `at ${side.event}`;

/** @param {import("./slow-judge.mjs").Race} race */
function raceLine({ block, byte, data_race: isDataRace, first, second, seen, size }) {
  const what = isDataRace ? "data race" : "race";
  const before = seen === undefined
    ? `nothing of agent ${first.agent} happens before ${second.event}`
    : `of agent ${first.agent} what it did up to ${seen} happens before ${second.event}`;
  return `${what} at ${bytesOf(byte, size)} of block ${block}: ${sideText(first)}, ${sideText(second)}; ${before}`;
}
