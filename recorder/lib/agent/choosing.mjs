// What an agent's `again()` and `choose(n)` return: as the seed draws it, or as it is given.

import { AGAIN, MOST_CHOICES, MOST_NUMBERS, canChooseFrom, kindOfAsked, numbersOf } from "../../script/choices.mjs";
import { GIVEN } from "../memory/choice-list.mjs";
import { Random } from "../memory/random.mjs";

const { Int32Array, RangeError: EngineRangeError, String: text } = globalThis;

// `again` is true in all but one of so many cases.
const ENDS_IN = 4;

// At one of so many looks at a clock a long time has passed.
const PASSES_IN = 8;

/** @param {number} asked @returns {boolean} whether it is a look at a clock */
const isLook = (asked) => {
  const kind = kindOfAsked(asked);
  return kind === "time" || kind === "lasting time";
};

/** What is thrown if something else than an agent chooses. */
export const NO_CHOICE = "only an agent that runs can choose: `init`, `check` and a module that is loaded can't call "
  + "`again` and `choose`";

/** What `answer` returns if the agent asks something else than is given. */
export const NOT_GIVEN = -1;

/** What it returns if the agent has made as many choices as it can. */
export const NO_ROOM = -2;

export class Choosing {
  /**
   * @param {number} agent
   * @param {import("../memory/choice-list.mjs").Choices} choices
   * @param {number} rounds how often `again` is true at most
   */
  constructor(agent, choices, rounds) {
    this.agent = agent;
    this.choices = choices;
    this.rounds = rounds;
    this.random = new Random(new Int32Array(4));
    /** The seed of the run. */
    this.seed = 0;
    /** Whether random numbers were drawn in it. */
    this.hasDrawn = false;
    /** How many rounds are left in it. */
    this.left = rounds;
    /** How many of the choices that are given were taken. */
    this.at = 0;
  }

  /** @param {number} seed of the run that begins */
  begin(seed) {
    this.seed = seed;
    this.hasDrawn = false;
    this.left = this.rounds;
    this.at = 0;
  }

  /**
   * @param {number} asked as `askedOf` has it, or `AGAIN`
   * @param {boolean} isPilot
   * @returns {number} what is returned, or `NOT_GIVEN` or `NO_ROOM`
   */
  answer(asked, isPilot) {
    const { choices } = this;
    if (choices.how === GIVEN.EXACTLY) return this.#exactly(asked);
    if (choices.count === MOST_CHOICES) return NO_ROOM;
    return choices.how === GIVEN.LENIENTLY ? this.#leniently(asked) : this.#drawn(asked, isPilot);
  }

  /** @param {number} asked */
  #exactly(asked) {
    const { at, choices } = this;
    if (at === choices.given || choices.askedAt(at) !== asked) return NOT_GIVEN;
    this.at += 1;
    return choices.returnedAt(at);
  }

  /**
   * The next one that is given and fits. If none does, the agent doesn't go on, and chooses 0, but time passes.
   * @param {number} asked
   */
  #leniently(asked) {
    const { choices } = this;
    let { at } = this;
    while (at < choices.given && choices.askedAt(at) !== asked) at += 1;
    if (at === choices.given) return isLook(asked) ? numbersOf(asked) - 1 : 0;
    this.at = at + 1;
    return choices.returnedAt(at);
  }

  /** @param {number} asked @param {boolean} isPilot which is to show as much as it can */
  #drawn(asked, isPilot) {
    if (isLook(asked)) return numbersOf(asked) > 1 && !isPilot && this.#below(PASSES_IN) === 0 ? 1 : 0;
    if (asked !== AGAIN) return this.#below(numbersOf(asked));
    if (this.left === 0 || (!isPilot && this.#below(ENDS_IN) === 0)) return 0;
    this.left -= 1;
    return 1;
  }

  /** @param {number} count @returns {number} a whole number below it */
  #below(count) {
    if (!this.hasDrawn) {
      this.random.seedApart(this.seed, this.agent);
      this.hasDrawn = true;
    }
    return this.random.below(count);
  }
}

/**
 * What an agent chooses by.
 * @param {(asked: number, called: Function) => number} chosen makes a choice, for the function that was called
 * @returns {{ again: () => boolean, choose: (count: number) => number }}
 */
export function choicesBy(chosen) {
  const again = () => chosen(AGAIN, again) === 1;
  /** @param {number} count */
  const choose = (count) => {
    if (canChooseFrom(count)) return chosen(count, choose);
    const given = typeof count === "number" ? text(count) : `a value of type ${typeof count}`;
    throw new EngineRangeError(`choose(n) takes a whole number from 1 to ${MOST_NUMBERS}, and was given ${given}`);
  };
  return { again, choose };
}
