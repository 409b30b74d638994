// Runs in which agents make fewer rounds, or choose smaller numbers. A round begins when `again` is true, and ends when
// its agent asks `again` the next time.

/** @typedef {import("../../script/choices.mjs").AgentChoice} AgentChoice */

/**
 * @typedef {object} ChosenRun
 * @property {number[]} row
 * @property {AgentChoice[][]} [choices] of each agent; undefined: none has made one
 * @property {number[][]} [drawsBefore] of each choice how many draws of the row come before it
 */

/** @typedef {{ row: number[], choices: AgentChoice[][] }} FewerChoices */

/** @typedef {{ from: number, to: number, agent: number }} Part of a list */

/** @param {AgentChoice[]} choices @returns {number[]} where rounds begin and, at last, where the last one ends */
function roundsIn(choices) {
  const asked = choices.flatMap(([does], at) => (does === "again" ? [at] : []));
  const last = asked.at(-1);
  // An agent may not have come to the end of its last round.
  return last !== undefined && choices[last][1] ? [...asked, choices.length] : asked;
}

/** @param {ChosenRun} run @returns {number} how many rounds an agent makes at most */
export const mostRounds = ({ choices = [] }) =>
  Math.max(0, ...choices.map((each) => roundsIn(each).length - 1));

/**
 * @param {ChosenRun} run
 * @param {Part[]} parts of its lists of choices, one of an agent at most, which are left out
 * @returns {FewerChoices} without the draws of these agents in between
 */
function without({ row, choices = [], drawsBefore = [] }, parts) {
  const fewer = [...choices];
  const left = new Set(row.keys());
  for (const { agent, from, to } of parts) {
    fewer[agent] = [...choices[agent].slice(0, from), ...choices[agent].slice(to)];
    const [first, last] = [drawsBefore[agent][from], drawsBefore[agent][to] ?? row.length];
    for (let at = first; at < last; at += 1) if (row[at] === agent) left.delete(at);
  }
  return { row: row.filter((_, at) => left.has(at)), choices: fewer };
}

/**
 * Runs without some rounds: of all agents at once, and of each agent.
 * @param {ChosenRun} run
 * @param {number} at the first of these rounds
 * @param {number} count
 * @returns {FewerChoices[]}
 */
export function withoutRounds(run, at, count) {
  const { choices = [] } = run;
  const parts = choices.flatMap((each, agent) => {
    const rounds = roundsIn(each);
    const [from, to = rounds.at(-1)] = [rounds[at], rounds[at + count]];
    return from === undefined || to === undefined || from >= to ? [] : [{ agent, from, to }];
  });
  const each = parts.map((part) => without(run, [part]));
  return parts.length > 1 ? [without(run, parts), ...each] : each;
}

/**
 * @param {ChosenRun} run
 * @param {(agent: number, at: number, number: number) => number} lowered of a number that an agent has chosen
 * @returns {FewerChoices}
 */
const withNumbers = ({ row, choices = [] }, lowered) => ({
  row,
  choices: choices.map((each, agent) => each.map((choice, at) =>
    (choice[0] === "again" ? choice : ["choose", choice[1], lowered(agent, at, choice[2])]))),
});

/** @param {ChosenRun} run @returns {FewerChoices[]} one in which agents choose 0 */
export function withZeros(run) {
  const { choices = [] } = run;
  return choices.flat().some(isLowerable) ? [withNumbers(run, () => 0)] : [];
}

/** @param {ChosenRun} run @returns {{ agent: number, at: number }[]} choices of numbers above 0 */
export const lowerable = ({ choices = [] }) => choices.flatMap((each, agent) =>
  each.flatMap((choice, at) => (isLowerable(choice) ? [{ agent, at }] : [])));

/**
 * Runs in which an agent chooses a smaller number once.
 * @param {ChosenRun} run
 * @param {{ agent: number, at: number }} place of the choice
 * @returns {FewerChoices[]}
 */
export function withSmaller(run, { agent, at }) {
  const number = Number(run.choices?.[agent][at].at(-1));
  const smaller = [...new Set([0, Math.floor(number / 2), number - 1])];
  return smaller.map((other) =>
    withNumbers(run, (whose, where, own) => (whose === agent && where === at ? other : own)));
}

/** @param {AgentChoice} choice */
const isLowerable = ([does, , number]) => does === "choose" && Number(number) > 0;

/**
 * @param {ChosenRun} one
 * @param {ChosenRun} other
 * @returns {number} below 0 if the one has fewer choices, or as many and smaller numbers
 */
export function compareChoices({ choices: one = [] }, { choices: other = [] }) {
  const fewer = one.flat().length - other.flat().length;
  return fewer === 0 ? sumOf(one) - sumOf(other) : fewer;
}

/** @param {AgentChoice[][]} choices */
const sumOf = (choices) => choices.flat().reduce((sum, choice) => sum + Number(choice.at(-1)), 0);
