// What keeps a thread of a program alive while its event loop has nothing to do. To find the words for that takes long,
// so it is done only if a run ends because no thread can move any more.

export class KeptAlive {
  /**
   * @param {import("./loop.mjs").Served} served
   * @param {() => boolean} hasTask whether the event loop has a task of its own
   */
  constructor(served, hasTask) {
    this.served = served;
    this.hasTask = hasTask;
  }

  /** @returns {boolean} whether something does, except what the machine may bring */
  isSome() {
    const { ports, timers, children, ends } = this.served;
    // What node has of its own under way may count as a timer for a moment.
    if (timers.alive && timers.liveHandles().length > 0) return true;
    if (this.hasTask() || ports.keeping().length > 0 || ends.liveHandles().length > 0) return true;
    let isSome = false;
    children.forEach(({ refed, listens }) => {
      isSome ||= refed || listens;
    });
    return isSome;
  }

  /**
   * The thread had nothing to do until its part in the run was over. What kept it alive is written if the run ended
   * because no thread could move any more.
   * @param {import("../real/real-work.mjs").Pending} pending what the machine could have brought
   */
  write(pending) {
    const { threadTexts, locks, moves, waits } = this.served;
    if (!moves.board.end.isStandstill()) return;
    const texts = this.#texts().concat(moves.silentTexts(pending));
    threadTexts.write([texts.join("; ")].concat(waits.texts(), locks.texts()).join("; it awaits "));
  }

  /** @returns {string[]} */
  #texts() {
    const { ports, timers, children, ends } = this.served;
    const texts = timers.alive ? timers.liveHandles().map(timerText) : [];
    if (this.hasTask()) texts.push("a task");
    children.forEach(({ refed, listens, where }) => {
      if (refed || listens) texts.push(`the worker started at ${where}`);
    });
    return texts.concat(ports.keeping().map(({ keeper }) => keeper), ends.liveHandles());
  }
}

/** @param {import("./timers.mjs").Described} timer @returns {string} */
const timerText = ({ text, where }) => (where === undefined ? text : `${text} from ${where}`);
