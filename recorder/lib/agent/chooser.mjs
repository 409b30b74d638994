// Makes an agent's choices in a run, in the agent's own thread. A choice is no move: nobody else moves, and no time
// passes.

import { AGAIN, MOST_CHOICES, askedOf, askedText, choiceOf } from "../../script/choices.mjs";
import { NEVER } from "../board/strategy/ways.mjs";
import { Choosing, NO_ROOM, NOT_GIVEN } from "./choosing.mjs";
import { numberAbove, numberHere, sourceAbove, sourceHere } from "./frames.mjs";

export class Chooser {
  /**
   * @param {import("./agent-run.mjs").AgentRun} part of the agent
   * @param {import("../memory/choice-list.mjs").Choices} choices its memory
   * @param {number} rounds how often `again` is true at most
   */
  constructor(part, choices, rounds) {
    this.part = part;
    this.choices = choices;
    this.choosing = new Choosing(part.agent, choices, rounds);
  }

  /** A run begins. */
  begin() {
    this.choosing.begin(this.part.context.board.clock.seed());
  }

  /** @returns {number} what time it is for the agent, in a run of which the tool chooses when time passes */
  look() {
    const { board: { rules }, ownClock } = this.part.context;
    const kind = ownClock.isLasting ? "lasting time" : "time";
    return ownClock.look(this.chosen(askedOf(kind, rules.timeouts === NEVER ? 1 : 2)));
  }

  /** @param {number} count of random numbers @returns {number} which one the agent draws */
  random(count) {
    return this.chosen(askedOf("random", count));
  }

  /** @returns {number} a number that no other draw of the run has */
  draw() {
    const { agent, context: { ownClock } } = this.part;
    this.chosen(askedOf(ownClock.isLasting ? "lasting unique" : "unique", 1));
    return ownClock.draw(agent);
  }

  /**
   * @param {number} asked as `Choosing` takes it
   * @param {Function} [called] the function that the agent's code has called, if that is known
   * @returns {number} what was chosen
   */
  chosen(asked, called) {
    const { choices, choosing, part, part: { context: { board, log, ownClock, sources } } } = this;
    part.needsRun();
    if (asked === AGAIN) ownClock.round();
    // An agent that chooses does something new, as one that looks at a clock.
    board.spins.found(part.agent);
    const number = choosing.answer(asked, board.mode.isPilot);
    if (number === NOT_GIVEN) this.#asksOther(asked, called);
    if (number === NO_ROOM) this.#meetsMost(called);
    const lineOf = () => (called === undefined ? numberHere(sources) : numberAbove(sources, called));
    const source = board.mode.notesLines ? lineOf() : 0;
    choices.note(asked, number, log.length, board.row.draws, source);
    return number;
  }

  /** @param {number} asked @param {Function} [called] @returns {never} */
  #asksOther(asked, called) {
    const { part } = this;
    const place = placeOfCall(called);
    part.enter();
    part.context.board.row.differsByChoice(part.agent);
    return part.end("failed", `${askedText(choiceOf(asked, 0))}${whereText(place)}`);
  }

  /** @param {Function} [called] @returns {never} */
  #meetsMost(called) {
    const { part } = this;
    const place = placeOfCall(called);
    part.enter();
    const many = `agent ${part.agent} has made ${MOST_CHOICES} choices, and goes on`;
    if (part.context.board.rules.cutAfter !== undefined) part.end("cut", many);
    return part.endAtLimit(`${many}${whereText(place)}`, false);
  }
}

/** @param {Function} [called] @returns {string | undefined} */
const placeOfCall = (called) => (called === undefined ? sourceHere() : sourceAbove(called));

/** @param {string | undefined} place @returns {string} to be added to what is done there */
const whereText = (place) => (place === undefined ? "" : `, at ${place}`);
