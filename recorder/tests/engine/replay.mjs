// Makes a script's moves one after the other: every act is asked of the engine, in the worker of its agent.
//
// Whose answers the lines of the report are:
//
// - `act`, `wait`, `leave` and `stuck waiting` are the engine's: it answered the call; it didn't, so the agent stands
//   in the engine's own line; it let the agent go; it still holds it.
// - `begin` and `return` are the script's own: an engine doesn't show how a call begins, and a call returns what it
//   answered. So are `stuck done`, `stuck not-waiting` and `stuck endless`, moves that an engine can't be asked for.
// - A wait of an agent that can't block is asked without blocking, with a timeout of 0, so that the engine makes all
//   checks that come first. Where none of them fails the TypeError is the script's own: every worker can block.
//
// A call's checks are the engine's, in its own order: only the name of the error shows. Who is woken by a notify, and
// in which order, shows in who answers.
//
// Time is a move of the script. A wait whose time will be up is called with a timeout that ends after all moves before
// that one (timeline.mjs). Where it ends earlier the run is void, and so where a wait turns out to be answered that was
// taken for one in the line: then it is made again from zero bytes, and everything is given more time.
//
// One process makes one script at a time. All its threads share one lock for all of the engine's lines, and who waits
// for that lock of others looks as if it stood in a line.

import { setTimeout as sleep } from "node:timers/promises";
import { CONSTRUCTORS } from "../../script/kinds.mjs";
import { answerText } from "../../script/report.mjs";
import { EngineFault, PATIENCE, until } from "./crew.mjs";
import { ScriptFault } from "./script.mjs";
import { Timeline } from "./timeline.mjs";

/** @typedef {import("./crew.mjs").Hand} Hand */
/** @typedef {import("./crew.mjs").Crew} Crew */
/** @typedef {import("./crew.mjs").Answer} Answer */
/** @typedef {import("./script.mjs").Script} Script */
/** @typedef {import("./script.mjs").Call} Call */

/**
 * @typedef {import("../../script/report.mjs").EntryText & { isOfEngine: boolean }} Entry what a move did, and who says
 * so
 */

/** @typedef {{ entries: Entry[], blocks: Uint8Array[], returned: number[] }} Outcome */

/** How often a script is made, each time with twice the time for everything. */
const TRIALS = 8;

/** The engine was slower than it was given time for, so the run is void. */
class TooSlow extends Error {}

/**
 * Where an agent stands.
 * @typedef {object} Actor
 * @property {number} number
 * @property {boolean} canBlock
 * @property {Call[]} calls
 * @property {number} returned how many of its calls returned
 * @property {"idle" | "begun" | "waiting" | "woken" | "answered"} phase
 * @property {string} answer of the call that acted
 * @property {number} deadline when the engine may end its wait by itself
 * @property {Hand} hand
 */

/**
 * Makes a script's moves.
 * @param {Script} script
 * @param {Crew} crew
 * @returns {Promise<Outcome>}
 * @throws {ScriptFault} where the engine refuses a view
 * @throws {EngineFault} where the engine did what no engine may
 */
export async function replay(script, crew) {
  for (let trial = 0; trial < TRIALS; trial += 1) {
    try {
      return await replayOnce(script, crew, trial);
    } catch (error) {
      if (!(error instanceof TooSlow)) throw error;
    }
  }
  throw new EngineFault("waits end, again and again, before the schedule has their ends: the machine is too slow");
}

/**
 * One trial.
 * @param {Script} script
 * @param {Crew} crew
 * @param {number} trial
 * @returns {Promise<Outcome>}
 */
async function replayOnce(script, crew, trial) {
  const buffers = script.blocks.map((length) => new SharedArrayBuffer(length));
  const views = script.views.map((view) => makeView(view, buffers));
  const hands = crew.lend(script.agents.length, views);
  const run = new Run(script, views, hands, trial);
  try {
    await run.makeMoves();
  } finally {
    await run.wakeAll();
    await crew.takeBack(hands);
  }
  const returned = run.actors.map((actor) => actor.returned);
  return { entries: run.entries, blocks: buffers.map((buffer) => new Uint8Array(buffer)), returned };
}

/**
 * @param {import("./script.mjs").View} view
 * @param {SharedArrayBuffer[]} buffers
 * @returns {Int32Array} what it is for an engine's check of types: the real kind is known when it runs
 */
function makeView({ name, kind, block, offset, length }, buffers) {
  try {
    return new CONSTRUCTORS[kind](buffers[block], offset, length ?? undefined);
  } catch (error) {
    throw new ScriptFault(`view ${name} can't be made: ${/** @type {Error} */ (error).message}`);
  }
}

/** One making of a script's moves. */
class Run {
  /** @type {Entry[]} */
  entries = [];

  /**
   * @param {Script} script
   * @param {Int32Array[]} views
   * @param {Hand[]} hands one for each agent
   * @param {number} trial how often it was made before
   */
  constructor(script, views, hands, trial) {
    this.script = script;
    this.views = views;
    // Timeouts get longer faster than waits are looked at, for looking takes a part of their time.
    this.care = trial + 1;
    this.timeline = new Timeline(script, 2 ** trial);
    /** @type {Actor[]} */
    this.actors = script.agents.map(({ canBlock, calls }, number) => (
      { number, canBlock, calls, returned: 0, phase: "idle", answer: "", deadline: Infinity, hand: hands[number] }
    ));
  }

  async makeMoves() {
    for (const [position, { agent, isTimeUp }] of this.script.schedule.entries()) {
      this.#checkNobodyLeft();
      const actor = this.actors[agent];
      const call = actor.returned;
      const { text, isOfEngine } = await (isTimeUp ? this.#timeUp(actor) : this.#step(actor, position));
      this.entries.push({ agent, call, text, isOfEngine });
    }
    // Who was woken by mistake in the last moves gets the time to show it.
    if (this.actors.some(({ phase }) => phase === "waiting")) await sleep(2);
    this.#checkNobodyLeft();
  }

  /**
   * A step of an agent, by what it does next.
   * @param {Actor} actor
   * @param {number} position
   * @returns {Promise<Line>}
   */
  async #step(actor, position) {
    switch (actor.phase) {
      case "idle":
        if (actor.returned === actor.calls.length) return ownLine("stuck done");
        actor.phase = "begun";
        return ownLine("begin");
      case "begun":
        return this.#act(actor, position);
      case "waiting":
        return engineLine("stuck waiting");
      case "woken":
        actor.phase = "answered";
        return engineLine(`leave ${actor.answer}`);
      default:
        actor.phase = "idle";
        actor.returned += 1;
        return ownLine(`return ${actor.answer}`);
    }
  }

  /**
   * The act of the call that an agent has begun.
   * @param {Actor} actor
   * @param {number} position
   */
  async #act(actor, position) {
    const call = actor.calls[actor.returned];
    if (call.method === "wait" && actor.canBlock) return this.#wait(actor, call, position);
    if (call.method === "wait") return this.#waitInVain(actor, call);
    const answer = await this.#ask(actor, call.operands);
    if (call.method === "notify" && typeof answer.answer === "number") await this.#awaitWoken(answer.answer);
    return acted(actor, textOf(answer));
  }

  /**
   * A wait of an agent that can block: it returns, or else its agent is in the engine's line.
   * @param {Actor} actor
   * @param {Call} call
   * @param {number} position
   */
  async #wait(actor, call, position) {
    const [index, value, timeout] = call.operands;
    actor.deadline = timeout === undefined ? Infinity : this.#deadline(actor, position);
    actor.hand.send("wait", call.view, [index, value, actor.deadline - performance.now()]);
    const answer = await actor.hand.settled(this.care);
    if (answer === null) {
      actor.phase = "waiting";
      return engineLine("wait");
    }
    if (answer.answer === "timed-out" && actor.deadline < Infinity) throw new TooSlow();
    const mayBe = answer.threw !== undefined || answer.answer === "not-equal";
    if (!mayBe) throw new EngineFault(`agent ${actor.number}'s wait answered ${answer.answer} as it began`);
    return acted(actor, textOf(answer));
  }

  /**
   * When the time of an agent's wait will be up.
   * @param {Actor} actor
   * @param {number} position
   */
  #deadline({ number }, position) {
    const isTimed = this.actors.some(({ phase, deadline }) => phase === "waiting" && deadline < Infinity);
    if (!isTimed) this.timeline.restart(position);
    return this.timeline.deadline(number, position);
  }

  /**
   * A wait of an agent that can't block: all checks but that one are the engine's.
   * @param {Actor} actor
   * @param {Call} call
   */
  async #waitInVain(actor, call) {
    const [index, value] = call.operands;
    const answer = await this.#ask(actor, [index, value, 0]);
    if (answer.threw !== undefined) return acted(actor, textOf(answer));
    acted(actor, "TypeError");
    return ownLine("act TypeError");
  }

  /**
   * Asks the engine for a call that doesn't block.
   * @param {Actor} actor
   * @param {import("./script.mjs").Operand[]} operands
   */
  async #ask(actor, operands) {
    const { method, view } = actor.calls[actor.returned];
    actor.hand.send(method, view, operands);
    return actor.hand.answered();
  }

  /**
   * Awaits that as many agents leave their waits as a notify says that it woke.
   * @param {number} count
   */
  async #awaitWoken(count) {
    const left = () => this.actors.filter((actor) => actor.phase === "waiting" && actor.hand.answer !== null);
    await until(() => left().length >= count);
    const woken = left();
    this.#checkInStep(woken);
    if (woken.length !== count || woken.some((actor) => actor.hand.answer?.answer !== "ok")) {
      const texts = woken.map((actor) => `agent ${actor.number} with ${textOf(actor.hand.answer)}`);
      throw new EngineFault(`a notify answered ${count}, and these left their waits: ${texts.join(", ") || "nobody"}`);
    }
    for (const actor of woken) {
      actor.phase = "woken";
      actor.answer = "ok";
    }
  }

  /** Nobody leaves a wait but by a notify, or where the schedule says that its time is up. */
  #checkNobodyLeft() {
    const left = this.actors.filter(({ phase, hand }) => phase === "waiting" && hand.answer !== null);
    this.#checkInStep(left);
    for (const { number, hand } of left) {
      throw new EngineFault(`agent ${number} left its wait with ${textOf(hand.answer)}, and nobody had woken it`);
    }
  }

  /**
   * Nobody's time was up too early, and nobody was taken for one in the line whose wait was still to be answered.
   * @param {Actor[]} left those whose waits have answered
   */
  #checkInStep(left) {
    for (const { hand, deadline } of left) {
      const { answer } = hand;
      const isEarly = answer?.answer === "timed-out" && deadline < Infinity;
      const isLate = answer?.answer === "not-equal" || answer?.threw !== undefined;
      if (isEarly || isLate) throw new TooSlow();
    }
  }

  /**
   * The time of an agent's wait is up.
   * @param {Actor} actor
   */
  async #timeUp(actor) {
    if (actor.phase !== "waiting") return ownLine("stuck not-waiting");
    if (actor.calls[actor.returned].operands.length < 3) return ownLine("stuck endless");
    // All moves before this one are made. Were they too slow, then one of them may have met a line without this agent.
    const time = actor.deadline - performance.now();
    if (time <= 0) throw new TooSlow();
    const answer = await actor.hand.answered(time + PATIENCE);
    if (answer.answer !== "timed-out") {
      throw new EngineFault(`the time of agent ${actor.number}'s wait is up, and it answered ${textOf(answer)}`);
    }
    actor.phase = "answered";
    actor.answer = "timed-out";
    return engineLine("leave timed-out");
  }

  /** Wakes the agents that still wait as the script ends, so that the workers can serve the next one. */
  async wakeAll() {
    for (const { hand, calls, returned } of this.actors) {
      if (!hand.isBusy || calls[returned].method !== "wait") continue;
      const { view, operands } = calls[returned];
      await until(() => {
        // A wait's index is a Number.
        Atomics.notify(this.views[view], Number(operands[0]));
        return !hand.isBusy;
      }, 1_000);
    }
  }
}

/** @typedef {{ text: string, isOfEngine: boolean }} Line of a report */

/** @param {Actor} actor @param {string} answer @returns {Line} */
function acted(actor, answer) {
  actor.phase = "answered";
  actor.answer = answer;
  return engineLine(`act ${answer}`);
}

/** @param {string} text @returns {Line} */
const engineLine = (text) => ({ text, isOfEngine: true });
/** @param {string} text @returns {Line} */
const ownLine = (text) => ({ text, isOfEngine: false });

/**
 * An answer as a report has it.
 * @param {Answer | null} answer
 */
function textOf(answer) {
  if (answer === null) throw new EngineFault("a call that has answered hasn't");
  if (answer.threw === undefined) return answerText(answer.answer);
  if (answer.threw === "TypeError" || answer.threw === "RangeError") return answer.threw;
  throw new EngineFault(`a call threw ${answer.threw}: ${answer.message}`);
}
