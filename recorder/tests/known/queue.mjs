// Right: a queue for many who push and pop. Each slot's own sequence says whether it is full, and whose lap it is in.

export const setup = { agents: 3, buffers: [16, 16] };

const HEAD = 0;
const TAIL = 1;
const SEQUENCES = 2;
const SIZE = 2;

class Queue {
  constructor(words, numbers) {
    this.words = words;
    this.numbers = numbers;
  }

  /** Takes the next position, if its slot's sequence has reached it. */
  claim(index, ahead) {
    for (;;) {
      const position = Atomics.load(this.words, index);
      const sequence = Atomics.load(this.words, SEQUENCES + (position % SIZE));
      if (sequence < position + ahead) return -1;
      if (sequence > position + ahead) continue;
      if (Atomics.compareExchange(this.words, index, position, position + 1) === position) return position;
    }
  }

  push(number) {
    const position = this.claim(TAIL, 0);
    if (position < 0) return false;
    this.numbers[position % SIZE] = number;
    Atomics.store(this.words, SEQUENCES + (position % SIZE), position + 1);
    return true;
  }

  pop() {
    const position = this.claim(HEAD, 1);
    if (position < 0) return undefined;
    const number = this.numbers[position % SIZE];
    Atomics.store(this.words, SEQUENCES + (position % SIZE), position + SIZE);
    return number;
  }
}

export function init(buffers) {
  new Int32Array(buffers[0]).set([0, 1], SEQUENCES);
}

export default function agent({ buffers, agent }) {
  const queue = new Queue(new Int32Array(buffers[0]), new Float64Array(buffers[1]));
  for (let time = 0; time < 2; time += 1) {
    if (agent < 2) {
      queue.push(agent + 0.5);
    } else {
      const number = queue.pop() ?? 0.5;
      if (number !== 0.5 && number !== 1.5) throw new Error(`popped ${number}`);
    }
  }
}

export const known = { endings: ["finished"] };
