// What is common to deques that others steal from: the owner pushes at the bottom, thieves take at the top.

export const TOP = 0;
export const BOTTOM = 1;

export class Deque {
  /**
   * @param {Int32Array} words two
   * @param {Float64Array} tasks a slot for each
   */
  constructor(words, tasks) {
    this.words = words;
    this.tasks = tasks;
  }

  /** By the owner alone. */
  push(task) {
    const bottom = Atomics.load(this.words, BOTTOM);
    this.tasks[bottom % this.tasks.length] = task;
    Atomics.store(this.words, BOTTOM, bottom + 1);
  }

  /** By the owner alone; the last task is taken as a thief does. */
  pop() {
    const bottom = Atomics.sub(this.words, BOTTOM, 1) - 1;
    const top = Atomics.load(this.words, TOP);
    if (top < bottom) return this.tasks[bottom % this.tasks.length];
    const isMine = top === bottom && Atomics.compareExchange(this.words, TOP, top, top + 1) === top;
    Atomics.store(this.words, BOTTOM, bottom + 1);
    return isMine ? this.tasks[bottom % this.tasks.length] : undefined;
  }

  steal() {
    const top = Atomics.load(this.words, TOP);
    if (top >= Atomics.load(this.words, BOTTOM)) return undefined;
    const task = this.tasks[top % this.tasks.length];
    return Atomics.compareExchange(this.words, TOP, top, top + 1) === top ? task : undefined;
  }
}
