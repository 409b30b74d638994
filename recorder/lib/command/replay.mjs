// What --replay does: the agents run once more, by the row of a kept script, or of one that somebody has written. They
// run in this process, so that a debugger that is attached to it can stop in them.

import { basename } from "node:path";
import { NoSuchPlace } from "../options/named-place.mjs";
import { Refused } from "../options/refused.mjs";
import { countText } from "../run/words/summary-words.mjs";
import { differingText, replayDifferenceText } from "../shorter/differing.mjs";
import { idleMoves } from "../shorter/idle-moves.mjs";
import { keptChoices, missingChoiceText, otherChoiceText } from "../shorter/kept-choices.mjs";
import { callNumbers, keptScript } from "../shorter/kept-script.mjs";
import { Replaying, keptRunText } from "./replaying.mjs";

/** @typedef {import("../shorter/kept-script.mjs").KeptScript} KeptScript */

const DEFAULT_SEED = 1;

/**
 * Refuses options that aren't those of the script's run.
 * @param {string} name
 * @param {unknown} given undefined: it isn't given
 * @param {unknown} kept
 */
function needSame(name, given, kept) {
  if (given === undefined || `${given}` === `${kept}`) return;
  throw new Refused(`--${name} is ${given}, but the script's run had ${kept}: leave it out, the script has it`);
}

/**
 * What the agents run on: the script says it.
 * @param {KeptScript} kept
 * @param {import("./options.mjs").CommandOptions} options
 */
function placeOf({ lengths, canBlock }, options) {
  const noBlock = canBlock.flatMap((can, agent) => (can ? [] : [agent]));
  needSame("agents", options.agents, canBlock.length);
  needSame("buffers", options.buffers, lengths);
  needSame("no-block", options.noBlock && [...new Set(options.noBlock)].sort((one, other) => one - other), noBlock);
  return { agents: canBlock.length, buffers: lengths, noBlock };
}

/**
 * @param {import("../../script/choices.mjs").AgentChoice[][]} agents of a kept run
 * @returns {import("../agent/own-clock.mjs").ChosenTime | undefined} undefined: the run had a clock
 */
function chosenTimeIn(agents) {
  const kinds = new Set(agents.flat().map(([does]) => does));
  if (kinds.has("lasting time") || kinds.has("lasting unique")) return "lasting";
  return kinds.has("time") || kinds.has("random") || kinds.has("unique") ? "anew" : undefined;
}

export class Replay extends Replaying {
  /**
   * @param {import("./options.mjs").CommandOptions} options
   * @param {string} module its URL
   * @param {NonNullable<import("./options.mjs").CommandOptions["replay"]>} wanted
   */
  constructor(options, module, { file, seed }) {
    super(options, file, module);
    const named = /^seed-(\d+)\./.exec(basename(file))?.[1];
    this.isNamed = named !== undefined || seed !== undefined;
    this.seed = seed ?? Number(named ?? DEFAULT_SEED);
    const text = keptRunText(file);
    this.idle = idleMoves(this.simulator, text);
    this.script = keptScript(text, file, this.idle.map(({ at }) => at));
    this.place = placeOf(this.script, options);
    this.choices = keptChoices(file, this.script.canBlock.length);
    this.keepsAs(/\.json$/);
  }

  /** @param {import("../seeds/job.mjs").CheckedOutcome} outcome @returns {string | undefined} */
  differenceOf({ divergence, detail, script, choices = [] }) {
    const { choices: kept, file } = this;
    if (divergence?.reason === "choice") {
      const [, asked] = /: (.*)$/.exec(detail) ?? ["", detail];
      return otherChoiceText(kept, choices, divergence.agent, asked, file);
    }
    if (divergence !== undefined) return differingText(divergence, detail, this.script);
    const other = script === undefined ? undefined : replayDifferenceText(this.script, keptScript(script, "the run"));
    return other ?? missingChoiceText(kept, choices);
  }

  /** @returns {Promise<import("../seeds/job.mjs").CheckedOutcome>} */
  async made() {
    const { choices: { agents: choices }, script: { draws }, module, place, seed } = this;
    const wanted = { row: draws.map(({ agent }) => agent), isExact: true, calls: callNumbers(this.script), choices };
    try {
      // A debugger would stop in each further run of the agents. So there are no pilots: the row says who moves, so
      // they would show nothing of use. And the lines of code are noted at once.
      return await this.one(seed, { module, ...place, everywhere: true, wanted, chosenTime: chosenTimeIn(choices) });
    } catch (problem) {
      throw problem instanceof NoSuchPlace ? new Refused(this.#otherText(problem)) : problem;
    }
  }

  titles() {
    return [this.#title(), ...this.#idleLines()];
  }

  /** @param {NoSuchPlace} problem with the buffers that the script has */
  #otherText({ message }) {
    const { file, script: { canBlock, lengths }, options } = this;
    const has = `it has ${countText(canBlock.length, "agent")} and buffers of ${lengths.join(", ")} bytes`;
    const why = `${has}, but in ${options.module} ${message}`;
    return `${file} is a script of another module: ${why}. Replay it with the module that it was kept from`;
  }

  /** @returns {string[]} what is said about moves that have no effect */
  #idleLines() {
    const { length } = this.idle;
    if (length === 0) return [];
    const [{ at, why }] = this.idle;
    const [have, are] = length === 1 ? ["1 move has", "is"] : [`${length} moves have`, "are"];
    return [`${have} no effect and ${are} left out, as in \`sabsim replay\`; the first is move ${at}: stuck ${why}`];
  }

  #title() {
    const why = this.isNamed ? "" : ", since the file's name has none; --seeds gives another";
    return `replayed ${this.file}, with the clocks and random numbers of seed ${this.seed}${why}`;
  }
}
