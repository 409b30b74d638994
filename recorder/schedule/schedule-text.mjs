// The text of a script with another schedule. All else stays as it is spelled.

import { scheduleText } from "../script/text.mjs";

/** @typedef {import("./turns.mjs").ScheduleMove} ScheduleMove */

/** A token of JSON. */
export const TOKEN = /"(?:[^"\\]|\\.)*"|[[\]{},:]|[^\s"[\]{},:]+/g;

/**
 * Where the schedule is in the text of a script; if several members have this name, the last one counts.
 * @param {string} text that `sabsim replay` takes
 * @returns {[number, number]} its first character, and the one behind its last
 */
function scheduleSpan(text) {
  let [depth, name, from, to] = [0, "", 0, 0];
  for (const { 0: token, index = 0 } of text.matchAll(TOKEN)) {
    if (token === "]" || token === "}") depth -= 1;
    if (depth === 1 && token.startsWith('"')) name = JSON.parse(token);
    if (depth === 1 && name === "schedule" && token === "[") from = index;
    if (depth === 1 && name === "schedule" && token === "]") to = index + 1;
    if (token === "[" || token === "{") depth += 1;
  }
  return [from, to];
}

/**
 * @param {string} text of a script that `sabsim replay` takes
 * @returns {(moves: ScheduleMove[]) => string} its text with another schedule; with its own schedule it is the same
 * text
 */
export function textWith(text) {
  const [from, to] = scheduleSpan(text);
  const own = JSON.stringify(JSON.parse(text.slice(from, to)));
  return (moves) => {
    if (JSON.stringify(moves) === own) return text;
    const written = moves.map((move) =>
      typeof move === "object" ? { agent: move.timeout, timeUp: true } : { agent: move, timeUp: false });
    return `${text.slice(0, from)}${scheduleText(written)}${text.slice(to)}`;
  };
}
