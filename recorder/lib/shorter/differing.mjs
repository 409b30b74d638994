// How a run that was made by the row of a kept script differs from that script, in words.

import { isRealAnswer, moverOf } from "../board/drawn-schedule.mjs";

/** @typedef {import("./kept-script.mjs").KeptScript} KeptScript */
/** @typedef {import("./kept-script.mjs").ScriptStep} ScriptStep */

/** The code no longer does what a kept script has. */
export class NoLongerTheSame extends Error {
  /** @param {string} how */
  constructor(how) {
    super(`the code no longer does the same: ${how}`);
  }
}

/** What may be wrong if already an agent's first call differs. */
const OTHER_MODULE = "; if the script is of another module, replay it with that one";

/**
 * How a run has diverged from its row.
 * @param {import("../board/drawn-schedule.mjs").Divergence} divergence
 * @param {string} detail of its outcome, which ends with the call that is made now
 * @param {KeptScript} kept
 * @returns {string}
 */
export function differingText({ reason, agent, draw }, detail, { draws }) {
  if (reason === "goes on") return `agent ${agent} goes on where the script ends`;
  const { step: { call, text }, goesOn } = draws[draw];
  const was = `agent ${agent}'s call ${call}`;
  const other = detail.replace(/^[^[]*/, "");
  const perhaps = call === 0 ? OTHER_MODULE : "";
  if (reason === "call" && !goesOn) return `${was} was ${text} in the script, and is now ${other}${perhaps}`;
  const now = {
    call: `it makes the next one, ${other}`, leaves: "it goes on from a wait", waits: "it still waits",
    ended: "it has come to its end", comes: "it gets a real answer", choice: `it asks for another choice, ${other}`,
  }[reason];
  if (goesOn) return `agent ${agent} was still in its call ${call}, ${text}, in the script, and now ${now}`;
  return `${was} was ${text} in the script, and now the agent hasn't come so far: ${now}`;
}

/** @param {ScriptStep} step in words */
function writeText({ agent, call, text }) {
  return `agent ${agent}'s ordinary write before its call ${call} was ${text} in the script`;
}

/** @param {ScriptStep} step in words */
function initText({ text }) {
  return `\`init\` left ${text} in the script`;
}

/** @param {ScriptStep | undefined} step @returns {string | undefined} what another step must have to be the same */
const nameOf = (step) => step && `${step.agent} ${step.isOwn} ${step.key}`;

/**
 * The first step in which a run differs from a script.
 * @param {KeptScript} kept
 * @param {KeptScript} now
 * @returns {string | undefined} how it differs; undefined if both are the same
 */
export function replayDifferenceText(kept, now) {
  const { length } = kept.steps;
  let at = 0;
  while (at < length && nameOf(kept.steps[at]) === nameOf(now.steps[at])) at += 1;
  const [was, is] = [kept.steps[at], now.steps[at]];
  if (was === undefined && is === undefined) return undefined;
  if (was === undefined || was.isOwn) {
    if (is === undefined || is.isOwn) return "its calls are others, or come in another order";
    const { agent, call, text } = is;
    return `agent ${agent} makes an ordinary write before its call ${call} that isn't in the script, ${text}`;
  }
  const text = was.agent < kept.canBlock.length ? writeText(was) : initText(was);
  const isOther = is !== undefined && !is.isOwn && is.agent === was.agent;
  return isOther ? `${text}, and is now ${is.text}` : `${text}, and isn't made now`;
}

/**
 * The first call or write of a program in which its run differs from a script.
 * @param {KeptScript} kept
 * @param {KeptScript} now
 * @returns {string | undefined} undefined: none differs, as far as the run goes
 */
export function firstOtherText(kept, now) {
  const at = now.steps.findIndex((step, number) => nameOf(step) !== nameOf(kept.steps[number]));
  if (at < 0) return undefined;
  const [was, is] = [kept.steps[at], now.steps[at]];
  if (was === undefined) return `the script ends before ${stepText(is)}`;
  return `the script has ${stepText(was)} next, and now comes ${stepText(is)}`;
}

/** @param {ScriptStep} step in words */
const stepText = ({ agent, isOwn, call, text }) =>
  `agent ${agent}'s ${isOwn ? "call" : "ordinary write before its call"} ${call}, ${text}`;

/**
 * How a run of a program has diverged from the row of a kept one.
 * @param {import("../board/drawn-schedule.mjs").Divergence} divergence
 * @returns {string}
 */
export function programDivergenceText({ reason, agent, draw, wanted, able }) {
  if (reason === "goes on") return `agent ${agent} goes on where the kept run ends`;
  if (wanted === undefined) return `agent ${agent} gets a real answer where the kept run ends`;
  return `${drawText(wanted, draw)}, and now ${nowText(reason, agent, wanted)}${ableText(able)}`;
}

/** @param {number} drawn @param {number} draw its position in the row of a kept run */
const drawText = (drawn, draw) =>
  `agent ${moverOf(drawn)} ${isRealAnswer(drawn) ? "got a real answer" : "moved"} with draw ${draw} of the kept run`;

/**
 * @param {import("../board/drawn-schedule.mjs").DivergenceReason} reason
 * @param {number} agent
 * @param {number} wanted
 */
function nowText(reason, agent, wanted) {
  if (reason === "comes") return `agent ${agent} gets one before`;
  if (reason === "ended") return "it has come to its end, or hasn't begun";
  return isRealAnswer(wanted) ? "it gets none" : "it has nothing to do, or waits";
}

/** @param {number[]} able which agents could move instead */
function ableText(able) {
  if (able.length === 0) return "";
  return `; ${able.length === 1 ? "agent" : "agents"} ${able.join(", ")} could move`;
}

/**
 * How the whole row of a program's run differs from that of a kept one.
 * @param {number[]} row of the kept run
 * @param {number | undefined} at where they differ first, in that one; undefined: they don't
 * @returns {string | undefined}
 */
export function programEndText(row, at) {
  if (at === undefined) return undefined;
  if (at === row.length) return "the run goes on where the kept run ends";
  return `${drawText(row[at], at)}, and now the run is over, or another agent moved there`;
}
