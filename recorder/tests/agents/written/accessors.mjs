// A lock whose words are accessors, which patterns, assignments and updates use.

export const setup = { agents: 2, buffers: [8] };

class Shared {
  #words;

  constructor({ buffers: [buffer] }) {
    this.#words = new Int32Array(buffer);
  }

  get state() {
    return Atomics.load(this.#words, 0);
  }

  set state(value) {
    Atomics.store(this.#words, 0, value);
    Atomics.notify(this.#words, 0);
  }

  get count() {
    return Atomics.load(this.#words, 1);
  }

  set count(value) {
    Atomics.store(this.#words, 1, value);
  }

  get patience() {
    return { from: this.state, ms: 5 };
  }

  wait({ from, ms } = this.patience) {
    if (from !== 0) Atomics.wait(this.#words, 0, from, ms);
  }

  tryLock() {
    return Atomics.compareExchange(this.#words, 0, 0, 1) === 0;
  }
}

const isHeld = ({ state }) => state !== 0;

export default function agent(given) {
  const shared = new Shared(given);
  while (isHeld(shared) || !shared.tryLock()) shared.wait();
  const before = shared.count++;
  const after = shared.count += 1;
  const free = shared.state = 0;
  if (after - before !== 2 || free !== 0) throw new Error(`from ${before} to ${after}`);
}

export const check = ([buffer]) => new Int32Array(buffer)[1] === 4;
