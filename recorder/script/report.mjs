// Reports: their form, the one that a replay of a run's script has to give, and how two of them differ.

/**
 * @typedef {object} EntryText what a move did
 * @property {number} agent that moved
 * @property {number} call its number among the agent's
 * @property {string} text what it did, in the report's words
 */

/**
 * The text of a report (docs/FORMATS.md has its form).
 * @param {EntryText[]} entries one for each move
 * @param {string[]} bytes of each block at the end, in hexadecimal digits
 * @param {{ returned: number, calls: number }[]} progress of each agent: how many of its calls returned
 * @returns {string}
 */
export function reportOf(entries, bytes, progress) {
  const moves = entries.map(({ agent, call, text }, position) => `${position}${headOf(agent, call)}${text}\n`);
  return moves.join("") + endText(bytes, progress);
}

/** @type {(agent: number, call: number) => string} what each line of a call has after the position */
const headOf = (agent, call) => ` ${agent} ${call} `;

/** @param {string[]} bytes @param {{ returned: number, calls: number }[]} progress */
function endText(bytes, progress) {
  const blocks = bytes.map((hex, block) => `block ${block} ${hex === "" ? "-" : hex}\n`);
  const agents = progress.map(({ returned, calls }, agent) => `agent ${agent} ${returned} of ${calls}\n`);
  return blocks.join("") + agents.join("");
}

/**
 * What a call returns, as a report spells it.
 * @param {number | bigint | string} answer a value, or a word such as "ok"
 * @returns {string}
 */
export const answerText = (answer) => (typeof answer === "bigint" ? `${answer}n` : `${answer}`);

/**
 * How the steps of a call are written. A call that joins the line has four steps, and any other call three.
 * @param {import("./text.mjs").Done} call
 * @returns {string[]} each with the end of its line
 */
function stepsOf({ joined, answer }) {
  const acts = joined ? ["wait\n", `leave ${answer}\n`] : [`act ${answer}\n`];
  return ["begin\n", ...acts, `return ${answer}\n`];
}

/**
 * What each move did, a line each.
 * @param {import("./text.mjs").Transcript} transcript
 */
function movesText({ calls, moves }) {
  const cursors = [];
  // Not by `map`: its array is of another kind once the engine has optimized this, and then this is compiled anew.
  for (let agent = 0; agent < calls.length; agent += 1) cursors.push({ call: 0, step: 0, head: headOf(agent, 0) });
  let text = "";
  for (let position = 0; position < moves.length; position += 1) {
    const { agent } = moves[position];
    const cursor = cursors[agent];
    // Each move of an agent belongs to one of its calls.
    const done = calls[agent][cursor.call];
    const steps = (done.steps ??= stepsOf(done));
    text += position + cursor.head + steps[cursor.step];
    cursor.step += 1;
    if (cursor.step < steps.length) continue;
    cursor.call += 1;
    cursor.step = 0;
    cursor.head = headOf(agent, cursor.call);
  }
  return text;
}

/**
 * The report of what the agents' code saw, in the form of `sabsim replay`: every answer, how far each agent came, and
 * the bytes at the end.
 * @param {import("./text.mjs").Transcript} transcript
 * @param {string[]} bytes of each block, in hexadecimal digits
 * @returns {string}
 */
export function reportText(transcript, bytes) {
  const progress = transcript.calls.map((calls) =>
    ({ returned: calls.filter((call) => call.answer !== null).length, calls: calls.length }));
  return movesText(transcript) + endText(bytes, progress);
}

/**
 * The first line in which two reports differ.
 * @param {string} recorded
 * @param {string} replayed
 * @returns {{ line: number, recorded: string, replayed: string } | undefined}
 */
export function firstDifference(recorded, replayed) {
  if (recorded === replayed) return undefined;
  const [ours, theirs] = [recorded.split("\n"), replayed.split("\n")];
  let line = 0;
  while (ours[line] === theirs[line]) line += 1;
  return { line: line + 1, recorded: ours[line] ?? "(no line)", replayed: theirs[line] ?? "(no line)" };
}
