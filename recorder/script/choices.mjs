// What agents have chosen in a run: what each asked, and what was returned. A kept run has it in a file beside its
// script.

/**
 * @typedef {"choose" | "time" | "lasting time" | "random" | "unique" | "lasting unique"} Chooses what chooses a number
 */

/**
 * @typedef {["again", boolean] | [Chooses, number, number]} AgentChoice what was asked, and what was returned: of
 * `again()` whether it goes on, of `choose(n)` the number n and the one that was chosen. In runs of `--all` the tool
 * chooses besides whether a long time has passed at a look at a clock, 1 of 2, and which random number is drawn. Of
 * unique bytes, which are never equal to others, there is one choice. Lasting are those that go on from round to round
 */

/** @typedef {{ agents: AgentChoice[][] }} ChoicesFile what such a file has: each agent's choices in their order */

/** From how many numbers an agent can choose. */
export const MOST_NUMBERS = 1_000;

/** How many choices an agent can make in a run. */
export const MOST_CHOICES = 4_000;

/** In place of the number that `choose` is asked with: `again` was asked, and returned 0 or 1. */
export const AGAIN = 0;

/** More than the number that `choose` is asked with: something else chooses one of so many numbers. */
const APART = 2_000;

/** @type {readonly Chooses[]} by how often `APART` is added */
const KINDS = Object.freeze(["choose", "time", "lasting time", "random", "unique", "lasting unique"]);

/** @param {Chooses} kind @param {number} count of numbers @returns {number} what is asked, as one number */
export const askedOf = (kind, count) => APART * KINDS.indexOf(kind) + count;

/** @param {number} asked @returns {Chooses | "again"} */
export const kindOfAsked = (asked) => (asked === AGAIN ? "again" : KINDS[floor(asked / APART)]);

/** @param {number} asked @returns {number} how many numbers can be chosen */
export const numbersOf = (asked) => (asked === AGAIN ? 2 : asked % APART);

/** What such a file can't be: the message says why. */
export class UnlikeChoices extends Error {}

const { isInteger } = Number;
const { floor } = Math;

/** From how many numbers each kind chooses at most. @type {Readonly<Record<Chooses, number>>} */
const MOST_OF_KIND = Object.freeze({
  choose: MOST_NUMBERS, time: 2, "lasting time": 2, random: 3, unique: 1, "lasting unique": 1,
});

/** @param {unknown} count @returns {count is number} whether `choose` takes it */
export const canChooseFrom = (count) => isInteger(count) && Number(count) >= 1 && Number(count) <= MOST_NUMBERS;

/** @param {number} asked as `askedOf` has it, or `AGAIN` @param {number} returned @returns {AgentChoice} */
export function choiceOf(asked, returned) {
  const kind = kindOfAsked(asked);
  return kind === "again" ? ["again", returned === 1] : [kind, numbersOf(asked), returned];
}

/** @param {AgentChoice} choice @returns {number} what was asked, as `choiceOf` takes it */
export const askedBy = (choice) => (choice[0] === "again" ? AGAIN : askedOf(choice[0], choice[1]));

/** @param {AgentChoice} choice @returns {number} what was returned: of `again` 0 or 1 */
export const returnedBy = (choice) => Number(choice[0] === "again" ? choice[1] : choice[2]);

/** @param {AgentChoice} choice @returns {string} what was asked, as the code has it, or in words */
export function askedText([does, count]) {
  switch (does) {
    case "again": return "again()";
    case "choose": return `choose(${count})`;
    case "random": return `a random number, 1 of ${count}`;
    case "unique": case "lasting unique": return "random bytes that are never equal to others";
    default: return "a look at a clock";
  }
}

/** @param {AgentChoice} choice @returns {string} what was asked and returned */
export function choiceText(choice) {
  const [does] = choice;
  if (does === "again" || does === "choose") return `${askedText(choice)}, which returned ${choice.at(-1)}`;
  if (does === "unique" || does === "lasting unique") return askedText(choice);
  return `${askedText(choice)}, ${does === "random" ? `the one at ${choice[2]}` : passedText(choice)}`;
}

/** @param {AgentChoice} choice at a look at a clock @returns {string} */
const passedText = (choice) => (returnedBy(choice) === 1 ? "after a long time" : "at once");

/** @param {AgentChoice} choice @returns {string} the same, as what its agent did */
export function chosenText(choice) {
  const [does, asked, number] = choice;
  switch (does) {
    case "again": return asked ? "chose to go on" : "chose not to go on";
    case "choose": return `chose ${number} of ${asked}`;
    case "random": return `drew the random number at ${number} of ${asked}`;
    case "unique": case "lasting unique": return `drew ${askedText(choice)}`;
    default: return `looked at a clock ${passedText(choice)}`;
  }
}

/** @param {AgentChoice[][]} agents the choices of each @returns {string} the text of their file */
export const choicesText = (agents) => `${JSON.stringify({ agents })}\n`;

/**
 * Reads such a file.
 * @param {string} text
 * @param {number} count how many agents there are
 * @returns {AgentChoice[][]}
 * @throws {UnlikeChoices}
 */
export function choicesIn(text, count) {
  const file = parsed(text);
  const isFile = typeof file === "object" && file !== null && Object.keys(file).join() === "agents";
  const agents = isFile ? /** @type {any} */ (file).agents : undefined;
  if (!Array.isArray(agents)) throw new UnlikeChoices('it must be an object with the member "agents" alone, an array');
  if (agents.length !== count) {
    throw new UnlikeChoices(`it has choices of ${agents.length} agents, and the script's run had ${count}`);
  }
  agents.forEach(needList);
  return agents;
}

/** @param {string} text @returns {unknown} */
function parsed(text) {
  try {
    return JSON.parse(text);
  } catch (error) {
    throw new UnlikeChoices(`it is no JSON: ${/** @type {Error} */ (error).message.split("\n")[0]}`);
  }
}

/** @param {unknown} list @param {number} agent whose choices it must have */
function needList(list, agent) {
  if (!Array.isArray(list)) throw new UnlikeChoices(`agents[${agent}] must be an array of choices`);
  if (list.length > MOST_CHOICES) {
    throw new UnlikeChoices(`agents[${agent}] has ${list.length} choices, and an agent can make ${MOST_CHOICES}`);
  }
  const at = list.findIndex((choice) => !isChoice(choice));
  if (at < 0) return;
  const forms = `["again",true], ["again",false], ${KINDS.map((kind) => `["${kind}",n,k]`).join(" or ")}`;
  const bounds = `with whole numbers n from 1 to ${KINDS.map((kind) => MOST_OF_KIND[kind]).join(", ")}`;
  const found = JSON.stringify(list[at]).slice(0, 60);
  throw new UnlikeChoices(`agents[${agent}][${at}] is ${found}, and must be ${forms}, ${bounds} and k from 0 to n - 1`);
}

/** @param {unknown} choice @returns {boolean} */
function isChoice(choice) {
  if (!Array.isArray(choice)) return false;
  const [does, asked, number] = choice;
  if (does === "again") return choice.length === 2 && typeof asked === "boolean";
  const most = MOST_OF_KIND[/** @type {Chooses} */ (does)];
  const isAsked = choice.length === 3 && canChooseFrom(asked) && asked <= most;
  return isAsked && isInteger(number) && number >= 0 && number < asked;
}

/**
 * @param {AgentChoice | undefined} one
 * @param {AgentChoice | undefined} other
 * @returns {boolean} whether the same was asked, with the same result
 */
export const isSameChoice = (one, other) => `${one}` === `${other}`;
