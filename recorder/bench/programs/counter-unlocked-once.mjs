// Wrong: agents add to an ordinary counter under a lock, but read it at last without the lock.

export const setup = { agents: 3, buffers: [8] };

const LOCK = 0;
const COUNT = 1;

export default function agent({ buffers, agent: self, agents }) {
  const words = new Int32Array(buffers[0]);
  for (let time = 0; time < 2; time += 1) {
    while (Atomics.compareExchange(words, LOCK, 0, 1) !== 0) Atomics.wait(words, LOCK, 1);
    words[COUNT] += 1;
    const isLast = words[COUNT] === agents * 2 - 1;
    Atomics.store(words, LOCK, 0);
    Atomics.notify(words, LOCK, 1);
    if (isLast && self === 0 && words[COUNT] > agents * 2) throw new Error("it counted too far");
  }
}
