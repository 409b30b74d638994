// An agent's part in a run: how far the agent has come, and how it ends the run.

import { SCRIPT_LIMITS } from "../../script/limits.mjs";
import { UNKNOWN_SOURCE } from "../memory/sources.mjs";
import { namedCallText, textRoom, viewKey, viewName } from "../memory/spelling.mjs";
import { mapGet, mapHas, mapSet, uncurried } from "../primordials.mjs";
import { OrdinaryAccesses } from "./ordinary-accesses.mjs";
import { numberHere, sourceHere } from "./frames.mjs";
import { changeText, laterText } from "./undone.mjs";

/** @typedef {import("../memory/records.mjs").Call} Call */

const { Error: EngineError, Map: EngineMap } = globalThis;
const clearMap = uncurried(Map.prototype.clear);

// How often an agent may catch that its run is over. Code that cleans up does so a few times, and then ends.
const MOST_CAUGHT = 100;

/** Ends an agent whose run is over. Agents may catch it; their next call throws it again, up to a number of times. */
export class RunIsOver extends EngineError {
  constructor() {
    super("this run is over: the recorder ends the agent here");
  }
}

/** @returns {string} where the agent's code is, to be added to what it does */
function whereText() {
  const source = sourceHere();
  return source === undefined ? "" : ` at ${source}`;
}

export class AgentRun {
  /** @param {number} agent its number @param {import("./agent-context.mjs").AgentContext} context */
  constructor(agent, context) {
    this.agent = agent;
    this.context = context;
    /** How many calls it has made. */
    this.made = 0;
    /** Whether the agent has a part in a run now. */
    this.isPlaying = false;
    /** Whether the run is over for it. */
    this.isOver = false;
    /** How often the agent's code has caught that. */
    this.caught = 0;
    /** Whether it is in a call of Atomics. It stays so if an exception ends the call midway. */
    this.isInside = false;
    /** @type {Call | undefined} the last call, for messages */
    this.last = undefined;
    this.accesses = new OrdinaryAccesses(agent, context);
    /** @type {Map<number, number>} the views that the script has, by their keys: the length of each one's name */
    this.views = new EngineMap();
  }

  begin() {
    clearMap(this.views);
    this.made = 0;
    this.isInside = false;
    this.accesses.begin();
    this.context.sources.mark(UNKNOWN_SOURCE);
    this.context.ownClock.begin();
    this.isPlaying = true;
    this.isOver = false;
    this.caught = 0;
  }

  /** The agent's own code has made a call. What it changed by ordinary writes is taken here. */
  enter() {
    const { board, later } = this.context;
    if (this.isInside) this.outOfStack();
    if (!board.turn.enter(this.agent)) this.over();
    this.isInside = true;
    this.accesses.renew();
    this.take();
    const goesOn = later.ongoing();
    if (goesOn !== undefined) this.end("failed", `agent ${this.agent} ${laterText(goesOn, "an agent", later)}`);
  }

  /** The call was made: the agent's own code goes on. */
  goOn() {
    this.accesses.goOn();
    this.isInside = false;
  }

  /** Takes what ordinary writes have changed since the agent's last call. */
  take() {
    const change = this.accesses.take();
    if (change !== undefined) this.end("failed", changeText(change, this));
  }

  /**
   * Ends the run if the script couldn't have the call, or if the run is to be cut here.
   * @param {Call} call
   */
  stayWithin(call) {
    const { calls, views, text } = SCRIPT_LIMITS;
    const { board, lengths, mayLackScript } = this.context;
    if (this.made === board.rules.cutAfter) this.end("cut", `agent ${this.agent} has made ${this.made} calls`);
    if (mayLackScript) {
      this.#stopSpinning();
      return;
    }
    if (this.made >= calls) this.meetsMostCalls();
    const key = viewKey(call);
    if (!mapHas(this.views, key)) {
      if (!board.journal.registers(key)) this.meetsLimit(`more than ${views} different typed arrays were used`);
      mapSet(this.views, key, viewName(lengths, call).length);
    }
    if (!board.journal.takesText(textRoom(mapGet(this.views, key), call))) {
      this.meetsLimit(`the script would be longer than ${text} bytes`);
    }
  }

  /**
   * Ends the run if something else was to be done.
   * @param {Call} [call] that the agent makes; else it goes on from a wait
   */
  followSchedule(call) {
    const { board, lengths } = this.context;
    if (board.row.allows(this.agent, call)) return;
    this.end("failed", call === undefined ? "" : namedCallText(viewName(lengths, call), call));
  }

  /** Goes on only in a run that goes on. */
  needsRun() {
    if (this.isOver || this.context.board.end.hasEnded()) this.over();
  }

  /** Ends a run that may have more calls than a script can have, if the agent spins for good. */
  #stopSpinning() {
    const { made } = this;
    if (made === 0 || made % SCRIPT_LIMITS.calls !== 0 || !this.#spinsForGood()) return;
    this.spins(`it has made ${made} calls, and goes on`);
  }

  /** @returns {boolean} whether its last calls are the same again and again, and no other agent does anything else */
  #spinsForGood() {
    const { board, records } = this.context;
    if (!records.endsAlike(this.made)) return false;
    board.spins.watch();
    return !board.deadlines.othersGoOn(this.agent);
  }

  /** @returns {never} */
  meetsMostCalls() {
    const { calls } = SCRIPT_LIMITS;
    if (this.context.records.endsAlike(this.made)) this.spins(`it has made ${calls} calls, and goes on`);
    return this.endAtLimit(`agent ${this.agent} has made ${calls} calls, and goes on${whereText()}`, false);
  }

  /** @param {string} what it does again and again @returns {never} */
  spins(what) {
    return this.endAtLimit(`agent ${this.agent} spins${whereText()}: ${what}`, true);
  }

  /** @param {string} detail @param {boolean} spins whether the agent does the same again and again @returns {never} */
  endAtLimit(detail, spins) {
    this.context.board.end.meets(this.agent, spins);
    this.#mark();
    return this.end("limit", detail);
  }

  /** @param {string} limit that is met; where the agent is, is added to it @returns {never} */
  meetsLimit(limit) {
    const where = whereText();
    return this.endAtLimit(where === "" ? limit : `${limit}: agent ${this.agent} is${where}`, false);
  }

  /** The run has ended while this agent's code went on, or the referee asks where it is. */
  interrupted() {
    const { board } = this.context;
    if (!this.isOver && board.end.isAsked() && board.turn.enter(this.agent)) {
      this.spins("it has made no call for too long");
    }
    this.over();
  }

  /** The stack ran out within a call: the agent can't go on as if the call had been made. */
  outOfStack() {
    const { board } = this.context;
    if (!board.turn.isInCall(this.agent) && !board.end.hasEnded()) board.turn.sleep(this.agent);
    if (board.end.hasEnded() || board.isOverFor(this.agent)) this.over();
    this.end("failed", `agent ${this.agent} ran out of stack in a call of Atomics`);
  }

  /** @param {import("../board/end.mjs").BoardEnding} ending @param {string} detail @returns {never} */
  end(ending, detail) {
    this.context.board.journal.countOrdinary(this.agent, this.accesses.count);
    this.context.board.end.end(ending, detail);
    return this.over();
  }

  /** The run has ended while the agent asked for a call or waited. It notes where that is. @returns {never} */
  cancelled() {
    this.#mark();
    return this.over();
  }

  /** Notes where the agent's code is. */
  #mark() {
    const { sources } = this.context;
    try {
      sources.mark(numberHere(sources));
    } catch {
      // The stack has run out, so the place isn't known.
    }
  }

  /** @returns {never} */
  over() {
    this.context.board.turn.acknowledgeEnd(this.agent);
    if (this.isOver) this.caught += 1;
    this.context.leave?.();
    if (this.caught > MOST_CAUGHT) this.context.board.turn.parkForever(this.agent);
    this.isOver = true;
    this.isInside = false;
    throw new RunIsOver();
  }
}
