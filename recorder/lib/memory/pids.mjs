// The living child processes of a thread, in shared memory: they are ended even if the thread never goes on.

const { Int32Array, SharedArrayBuffer } = globalThis;

/** If there are more at once, these aren't known. */
const MOST = 256;

export class Pids {
  /** @returns {SharedArrayBuffer} */
  static memory() {
    return new SharedArrayBuffer(MOST * 4);
  }

  /** @param {SharedArrayBuffer} memory of one thread */
  constructor(memory) {
    this.numbers = new Int32Array(memory);
  }

  /** @param {number} pid of a process that has begun */
  add(pid) {
    this.#replace(0, pid);
  }

  /** @param {number} pid of a process that has ended */
  remove(pid) {
    this.#replace(pid, 0);
  }

  /** @returns {number[]} all of them; they are forgotten then */
  take() {
    const taken = [...this.numbers].filter((pid) => pid !== 0);
    this.numbers.fill(0);
    return taken;
  }

  /** @param {number} from @param {number} to */
  #replace(from, to) {
    const at = this.numbers.indexOf(from);
    if (at >= 0) this.numbers[at] = to;
  }
}
