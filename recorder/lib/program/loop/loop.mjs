// The event loop of a program's thread. Ticks and microtasks run while the thread keeps its turn. Then one task begins:
// a message, a timer, an immediate, or one of the thread's own; the seed draws which. The thread's real loop turns only
// while modules are read, and before the thread ends.

import { Random } from "../../memory/random.mjs";
import { runTicks, underWay } from "../node/internals.mjs";
import { KeptAlive } from "./kept-alive.mjs";
import { Tasks } from "./tasks.mjs";
import { never, turnLater } from "../real/real-loop.mjs";
import { FILE_REQUESTS, isForeign, pendingOf } from "../real/real-work.mjs";

/** Each thread draws its tasks from a random stream of its own, numbered from here. */
const TASKS = 64;

/** How likely it is that the time of the first timer comes, in runs in which short times are up early. */
const HASTY = 0.5;

/** What comes of a step: the thread goes on; its part is over; node reads; it looks; or the real loop turns. */
const STEP = Object.freeze({ GOES_ON: 0, IS_OVER: 1, READS: 2, LOOKS: 3, TURNS: 4 });

/** What is under way if an answer is held back. */
const HELD = Object.freeze({ isSome: true, byThemselves: false, texts: ["an answer"] });

/**
 * @typedef {object} Served what an event loop serves
 * @property {import("../moves/moves.mjs").Moves} moves
 * @property {import("../ports/ports.mjs").Ports} ports
 * @property {import("./timers.mjs").Timers} timers
 * @property {import("../moves/wait-async.mjs").WaitAsync} waits
 * @property {import("../locks/locks.mjs").Locks} locks
 * @property {import("../workers/ends.mjs").Ends} ends
 * @property {import("../../memory/thread-texts.mjs").ThreadTexts} threadTexts
 * @property {(why: string) => never} refuse ends the run
 * @property {() => never} leave leaves all code of the run
 * @property {() => void} becomeIdle is called when the thread's part in the run is over, and none of its code goes on
 * @property {Set<import("../workers/workers.mjs").Child>} children workers that this thread has started
 * @property {import("../../memory/task-notes.mjs").TaskNotes} notes of tasks that begin
 * @property {() => string | undefined} here where the program's code is
 * @property {import("../real/io-polling.mjs").IoPolling} looking
 * @property {boolean} hasPhases whether timers that are due come before all else in each turn of the loop, as in node
 */

export class Loop {
  #tasks = new Tasks();

  /** Whether the loop has just turned: then timers come first. */
  #isTurning;

  /** Whether what waits in ports is looked at anew: it comes before the immediates. In a module the loop has begun. */
  #looks = false;

  /** @type {any} when it turns next */
  #next = undefined;

  /** Whether the code of the run is being left. */
  #isHalted = false;

  /** @type {Map<object, number>} how many messages of each port come before the next immediate */
  #before = new Map();

  /** Whether the thread looks for real answers before it begins a task: it hasn't done so in vain since it rested. */
  #mayPoll = true;

  /**
   * Whether the real loop has turned since the thread did something: node may do more then, as http2 when it begins.
   */
  #hasAwaited = false;

  /** Whether an answer is held back that has come. */
  #holds = false;

  /** @type {() => void} evaluates the thread's module */
  #evaluate = () => {};

  /** @param {Served} served */
  constructor(served) {
    this.served = served;
    this.kept = new KeptAlive(served, () => this.#tasks.count > 0);
    this.#isTurning = served.hasPhases;
    // A row of its own: so a thread does the same if only others are drawn in another order.
    this.random = new Random(new Int32Array(4));
  }

  /**
   * @param {string} text what a task does
   * @param {() => void} act
   * @param {string} [place]
   * @param {import("../sync/trips.mjs").Order} [order] if it has a result
   */
  later(text, act, place, order) {
    this.#tasks.push({ text, act, place: this.#notes ? this.served.here() ?? place : undefined, order });
  }

  /** Whether it is noted what the loop begins. */
  get #notes() {
    return this.served.moves.board.mode.notesLines;
  }

  /** @param {string} text what begins now, or is done @param {string} [place] where it was made, or is done */
  note(text, place = "") {
    const { notes, moves: { agent, player } } = this.served;
    if (this.#notes) notes.note({ event: player.context.log.length, agent, text, place });
  }

  /** @param {import("./timers.mjs").Described} task that begins now */
  #noteTask(task) {
    if (this.#notes) this.note(`runs ${task.text}`, task.where);
  }

  /** Nothing of an earlier run is left. */
  clear() {
    this.served.locks.clear();
    this.#tasks.clear();
    this.#isTurning = this.served.hasPhases;
    this.#looks = false;
    this.#mayPoll = true;
    this.#hasAwaited = false;
    this.#before = new Map();
    this.#isHalted = false;
  }

  /**
   * Begins when the real loop turns. The thread's module is evaluated then, so that nothing real comes before its loop
   * is there to take it.
   * @param {() => void} evaluate begins to evaluate the module
   */
  begin(evaluate) {
    const { board, agent } = this.served.moves;
    this.#evaluate = evaluate;
    this.random.seed(board.clock.seed());
    this.random.branch(TASKS + agent);
    this.#tasks.begin(board.clock.seed(), agent, board.mode.isPilot);
    this.#next = turnLater(this.#begins);
  }

  /** The thread's part in the run is over, while its code runs. */
  halt() {
    this.#isHalted = true;
    never(this.#next);
    // Node would hand what is held back to the program.
    if (this.#holds) this.served.moves.parkForever();
  }

  #begins = () => {
    this.#evaluate();
    this.#turn();
  };

  #turn = () => {
    let step;
    do step = this.#step(false); while (step === STEP.GOES_ON);
    if (step === STEP.IS_OVER) return this.served.becomeIdle();
    if (step === STEP.LOOKS) return this.#look();
    if (step === STEP.READS) return this.#read();
    this.#next = turnLater(this.#turn);
  };

  /** Goes on when the real loop has turned. A real answer that comes meanwhile is a move. */
  #read() {
    const { looking } = this.served;
    looking.watch(this.#answered);
    this.#next = turnLater(() => {
      looking.close();
      this.#turn();
    });
  }

  /**
   * One step of the event loop.
   * @param {boolean} holds whether an answer is held back
   * @returns {number} one of `STEP`
   */
  #step(holds) {
    const { ends, moves } = this.served;
    this.drain();
    if (ends.isDone()) return STEP.IS_OVER;
    const active = underWay();
    if (isReading(active)) return STEP.READS;
    const pending = holds ? HELD : this.#pending(active);
    if (!pending.isSome && this.#isLeft()) return this.#endsNow();
    if (this.#hasTask()) {
      if (!moves.offer(pending, this.#mayPoll)) return STEP.IS_OVER;
    } else {
      if (!pending.isSome && !this.kept.isSome()) return this.#endsNow();
      this.#mayPoll = true;
      moves.board.vain?.rests(moves.agent, this.#places);
      if (!moves.idle(this.#untilTimer(), pending)) {
        this.kept.write(pending);
        return STEP.IS_OVER;
      }
    }
    if (moves.pollMilliseconds > 0) return STEP.LOOKS;
    this.#act();
    return STEP.GOES_ON;
  }

  /** Looks for real answers, and goes on then. */
  #look() {
    const { looking, moves } = this.served;
    looking.begin({
      onCome: this.#answered,
      milliseconds: moves.pollMilliseconds,
      waitsFor: () => this.#pending(underWay()).texts.join(),
      then: (found) => {
        this.#mayPoll = found === "came";
        moves.looked(found);
        if (found !== "came" && this.#hasTask() && moves.takesUp()) this.#act();
        this.#turn();
      },
    });
  }

  /** An answer has come. */
  #answered = () => {
    const { moves } = this.served;
    if (!moves.isDue()) this.#hold();
    moves.answered();
  };

  /** What has come isn't due by the run's row. Until it is, the thread goes on with what else it has to do. */
  #hold() {
    this.#holds = true;
    let step;
    do step = this.#step(true); while (step === STEP.GOES_ON);
    if (step === STEP.IS_OVER) this.served.moves.parkForever();
    this.#holds = false;
  }

  /** Runs ticks and microtasks until there are none. */
  drain() {
    for (let again = true; again;) {
      again = false;
      try {
        runTicks();
      } catch (thrown) {
        this.#caught(thrown);
        again = !this.served.ends.isOver;
      }
    }
    // If the code was in a microtask, the engine has left only that microtask.
    if (this.#isHalted) this.served.leave();
  }

  /** @param {unknown} thrown by the program's code: node gives the listeners of a port no more at once then */
  #caught(thrown) {
    this.served.ports.latest = undefined;
    this.served.ends.uncaught(thrown);
  }

  /** Runs ticks and microtasks of node's. @returns {boolean} whether node has nothing else under way for the thread */
  isSwept() {
    runTicks();
    return !underWay().some((each) => FILE_REQUESTS.has(each) || isForeign(each));
  }

  /** Nothing keeps the thread alive. @returns {number} one of `STEP` */
  #endsNow() {
    const { ends } = this.served;
    if (!this.#hasAwaited) {
      this.#hasAwaited = true;
      return STEP.TURNS;
    }
    ends.beforeExit();
    this.drain();
    if (ends.isOver) return STEP.IS_OVER;
    const hasTask = this.#hasOwnTask() && !this.#isLeft();
    if (hasTask || this.kept.isSome() || this.#pending(underWay()).isSome) return STEP.GOES_ON;
    ends.leave();
    return STEP.IS_OVER;
  }

  /** @param {string[]} active resources of node's @returns {import("../real/real-work.mjs").Pending} */
  #pending(active) {
    return pendingOf(active, (what) => this.served.refuse(`waits for ${what} of node, which isn't simulated`));
  }

  #now() {
    return this.served.moves.board.clock.now();
  }

  #hasTask() {
    const { waits } = this.served;
    return waits.isWoken || waits.deadline <= this.#now() || this.#hasOwnTask();
  }

  /** Whether there is something to do besides promises of waitAsync: node doesn't look at those after `beforeExit`. */
  #hasOwnTask() {
    const { ports, timers: { deadline, immediates } } = this.served;
    return this.#tasks.count > 0 || immediates > 0 || deadline <= this.#now() || ports.ready().length > 0;
  }

  /** @returns {boolean} whether only unref'ed immediates are left, besides what the machine may bring */
  #isLeft() {
    const { ports, timers: { areLeft }, waits } = this.served;
    if (!areLeft || !this.#looks || !this.#isTurning || this.#tasks.count > 0) return false;
    if (waits.isWoken || this.#deadline() <= this.#now()) return false;
    return ports.ready().length === 0 && !this.kept.isSome();
  }

  /** @returns {number} when the first timer is due, or the time of the first waitAsync is up */
  #deadline() {
    const { timers: { deadline }, waits } = this.served;
    return Math.min(deadline, waits.deadline);
  }

  /** @returns {number | undefined} in how many milliseconds a timer or a waitAsync is due */
  #untilTimer() {
    const deadline = this.#deadline();
    return deadline === Infinity ? undefined : Math.max(0, deadline - this.#now());
  }

  /** @returns {unknown[]} where all timers were made that are still to be due; undefined: that isn't known */
  #places = () => {
    const { timers: armed, waits } = this.served;
    return waits.deadline === Infinity ? armed.places() : [undefined];
  };

  /** Begins one of the tasks that are there. */
  #act() {
    const acts = this.#choices();
    if (acts.length === 0) return;
    this.#hasAwaited = false;
    const at = acts.length === 1 ? 0 : this.random.below(acts.length);
    const act = acts[at];
    if (act !== this.#runDue) this.served.moves.board.vain?.news();
    this.served.ports.latest = undefined;
    try {
      act();
    } catch (thrown) {
      this.#caught(thrown);
    }
  }

  /**
   * What may begin now. In node the timers that are due come first in each turn of the loop, then messages and the
   * like, then the immediates. A timer doesn't come between two immediates, but may come between two messages. A
   * message that is there when the loop looks comes before the immediates; one that comes later may. What waitAsync has
   * promised by now is settled before the immediates.
   * @returns {(() => void)[]}
   */
  #choices() {
    const { ports, timers: armed, waits } = this.served;
    const { closing } = ports;
    if (closing !== undefined) return [() => ports.deliver(closing)];
    if (armed.inRound > 0) return [() => this.#runImmediate()];
    this.#offerEarly();
    const isDue = this.#deadline() <= this.#now();
    if (isDue && this.#isTurning) return [this.#runDue];
    this.#isTurning = false;
    const ready = ports.ready();
    const isFirst = this.#areFirst(ready);
    const acts = ready.map((port) => () => {
      this.#before.set(port, (this.#before.get(port) ?? 0) - 1);
      ports.deliver(port);
    });
    if (this.#tasks.count > 0) acts.push(() => this.#runTask());
    if (waits.isWoken) acts.push(() => waits.settle());
    else if (armed.immediates > 0) {
      if (!isFirst) acts.push(() => this.#runImmediate());
    } else if (isDue) acts.push(this.#runDue);
    return acts;
  }

  #runTask() {
    const { text, place, act } = this.#tasks.take();
    this.note(text, place);
    act();
  }

  /** @param {any[]} ready the ports that have messages @returns {boolean} whether some come before the immediates */
  #areFirst(ready) {
    const { ports } = this.served;
    if (this.#looks) {
      this.#before = new Map();
      ready.forEach((port) => this.#before.set(port, ports.waiting(port)));
    }
    this.#looks = false;
    return ready.some((port) => (this.#before.get(port) ?? 0) > 0);
  }

  /** Runs the first timer that is due, or ends the first waitAsync whose time is up. */
  #runDue = () => {
    const { timers: armed, waits } = this.served;
    this.#looks = true;
    const { vain } = this.served.moves.board;
    if (waits.deadline < armed.deadline) {
      vain?.news();
      waits.timeOut();
    } else {
      const timer = armed.nextTimer();
      vain?.turns(() => timer?.where);
      if (timer !== undefined && vain?.isShown) this.#noteTask(timer);
      armed.runTimer();
    }
  };

  /** After the last immediate of a round the loop turns. */
  #runImmediate() {
    const { timers: armed } = this.served;
    const immediate = armed.nextImmediate();
    if (immediate !== undefined) this.#noteTask(immediate);
    try {
      armed.runImmediate();
    } finally {
      this.#isTurning = armed.inRound === 0;
      this.#looks = true;
    }
  }

  /** In some of the draws the time of the first timer comes though there is something else to do. */
  #offerEarly() {
    const { agent, board: { clock, deadlines, strategy } } = this.served.moves;
    const left = this.#deadline() - clock.now();
    if (!(left > 0 && deadlines.mayPassEarly(agent, left))) return;
    const likelihood = strategy.isHasty ? HASTY : strategy.share;
    if (likelihood > 0 && this.random.fraction() < likelihood) deadlines.passEarly(agent, left);
  }
}

/** @param {string[]} active resources of node's @returns {boolean} */
const isReading = (active) => active.some((each) => FILE_REQUESTS.has(each));
