// The text of a run's script. It has one layout, so the same run is the same text.

import { SCRIPT_LIMITS } from "./limits.mjs";

/**
 * @typedef {object} View as a script has it
 * @property {string} name
 * @property {string} kind
 * @property {number} block
 * @property {number} offset
 * @property {number} length
 */

/** @typedef {View & { text?: string }} SpelledView with what a script has of it, if that was made already */

/**
 * @typedef {object} Done a call that has begun
 * @property {string} text the call as a script has it
 * @property {boolean} joined whether it joined the line of waiters
 * @property {string | null} answer as a report spells it, or null while it waits
 * @property {boolean} isOwn whether the agent called it; else it stands for an ordinary write, or hands a wait over
 * @property {Done} [standsFor] what the agent called, if another agent of the script makes that call
 * @property {string} [name] of its element, if that has one
 * @property {string[]} [steps] what a report has of each of its steps, once that was made
 */

/** @typedef {{ agent: number, timeUp: boolean }} Move */

/**
 * @typedef {object} Transcript
 * @property {number[]} lengths of the blocks
 * @property {boolean[]} canBlock of each agent
 * @property {SpelledView[]} views
 * @property {Done[][]} calls of each agent
 * @property {Move[]} moves
 */

const MOVES_ON_A_LINE = 24;

/** A move of each agent, after another move of its line. */
const NEXT_MOVES = Array.from({ length: SCRIPT_LIMITS.agents }, (_, agent) => `, ${agent}`);

/** @param {SpelledView} view @returns {string} the view as a script has it */
export function viewText({ name, kind, block, offset, length, text }) {
  return text ?? `{"name": "${name}", "kind": "${kind}", "block": ${block}, "offset": ${offset}, "length": ${length}}`;
}

/** @param {Done[]} calls @param {boolean} canBlock */
function agentText(calls, canBlock) {
  if (calls.length === 0) return `{"block": ${canBlock}, "calls": []}`;
  return `{"block": ${canBlock}, "calls": [\n      ${calls.map((call) => call.text).join(",\n      ")}\n    ]}`;
}

/** @param {Move[]} moves @returns {string} the moves of a schedule, laid out over lines */
export function scheduleText(moves) {
  if (moves.length === 0) return "[]";
  let text = "[";
  for (let at = 0; at < moves.length; at += 1) {
    const { agent, timeUp } = moves[at];
    const move = timeUp ? `, {"timeout": ${agent}}` : NEXT_MOVES[agent];
    if (at % MOVES_ON_A_LINE > 0) text += move;
    else text += `${at === 0 ? "" : ","}\n    ${move.slice(", ".length)}`;
  }
  return `${text}\n  ]`;
}

/** @param {string[]} items each on a line of its own */
function listText(items) {
  return items.length === 0 ? "[]" : `[\n    ${items.join(",\n    ")}\n  ]`;
}

/** @param {Transcript} transcript @returns {string} the script of what was done */
export function scriptText(transcript) {
  const views = transcript.views.map(viewText);
  const agents = transcript.calls.map((calls, agent) => agentText(calls, transcript.canBlock[agent]));
  return [
    "{",
    `  "blocks": [${transcript.lengths.join(", ")}],`,
    `  "views": ${listText(views)},`,
    `  "agents": ${listText(agents)},`,
    `  "schedule": ${scheduleText(transcript.moves)}`,
    "}",
    "",
  ].join("\n");
}
