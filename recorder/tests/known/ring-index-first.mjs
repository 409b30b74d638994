// Wrong: the ring's index goes on before the byte is there.

export const setup = { agents: 2, buffers: [8, 2] };

const HEAD = 0;
const TAIL = 1;

class Ring {
  constructor(words, slots) {
    this.words = words;
    this.slots = slots;
  }

  /** For as many as there are slots, so that it is never full. */
  push(byte) {
    const { words, slots } = this;
    const tail = Atomics.load(words, TAIL);
    Atomics.store(words, TAIL, tail + 1);
    slots[tail] = byte;
    Atomics.notify(words, TAIL, 1);
  }

  pop() {
    const { words, slots } = this;
    const head = Atomics.load(words, HEAD);
    while (Atomics.load(words, TAIL) === head) Atomics.wait(words, TAIL, head);
    const byte = slots[head];
    Atomics.store(words, HEAD, head + 1);
    return byte;
  }
}

export default function agent({ buffers, agent }) {
  const ring = new Ring(new Int32Array(buffers[0]), new Uint8Array(buffers[1]));
  for (const message of [10, 20]) {
    if (agent === 0) ring.push(message);
    else if (ring.pop() !== message) throw new Error(`popped something else than ${message}`);
  }
}

export const known = { endings: ["finished", "race"], races: [["slots\\[tail\\] = byte", "byte = slots\\[head\\]"]] };
