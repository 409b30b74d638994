// A semaphore of two permits, for any number of rounds: no more than two agents are inside.

export const setup = { agents: 3, buffers: [8], names: { PERMITS: 0, INSIDE: 1 } };

export const init = ([buffer]) => void (new Int32Array(buffer)[0] = 2);

export default function agent({ buffers, again }) {
  const words = new Int32Array(buffers[0]);
  while (again()) {
    for (;;) {
      const permits = Atomics.load(words, 0);
      if (permits === 0) Atomics.wait(words, 0, 0);
      else if (Atomics.compareExchange(words, 0, permits, permits - 1) === permits) break;
    }
    if (Atomics.add(words, 1, 1) > 1) throw new Error("a third agent is inside");
    Atomics.sub(words, 1, 1);
    Atomics.add(words, 0, 1);
    Atomics.notify(words, 0, 1);
  }
}

export const check = ([buffer]) => new Int32Array(buffer)[0] === 2;
