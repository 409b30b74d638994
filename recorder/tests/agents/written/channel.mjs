// A channel of one slot that can be iterated, with timed waits.

export const setup = { agents: 2, buffers: [8] };

const [STATE, SLOT] = [0, 1];
const [EMPTY, FULL, CLOSED] = [0, 1, 2];

class Channel {
  constructor(words) {
    this.words = words;
  }

  #waitWhile(state) {
    while (Atomics.load(this.words, STATE) === state) Atomics.wait(this.words, STATE, state, 10);
  }

  #put(state) {
    Atomics.store(this.words, STATE, state);
    Atomics.notify(this.words, STATE);
  }

  send(value) {
    this.#waitWhile(FULL);
    this.words[SLOT] = value;
    this.#put(FULL);
  }

  close() {
    this.#waitWhile(FULL);
    this.#put(CLOSED);
  }

  #receive() {
    this.#waitWhile(EMPTY);
    if (Atomics.load(this.words, STATE) === CLOSED) return { done: true, value: undefined };
    const value = this.words[SLOT];
    this.#put(EMPTY);
    return { done: false, value };
  }

  [Symbol.iterator]() {
    return { next: () => this.#receive() };
  }
}

export default function agent({ buffers: [buffer], agent: number }) {
  const channel = new Channel(new Int32Array(buffer));
  if (number === 0) {
    [3, 4].forEach((value) => channel.send(value));
    channel.close();
    return;
  }
  const [first, ...others] = channel;
  if (first !== 3 || others.length !== 1) throw new Error(`received ${first}, and ${others.length} more`);
}
