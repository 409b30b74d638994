// Agents whose time and chance come from the seed: they store what they got.

export const setup = { agents: 3, buffers: [48] };

export default function agent({ buffers, agent: number }) {
  const words = new Int32Array(buffers[0]);
  for (let time = 0; time < 2; time += 1) {
    Atomics.store(words, 2 * number + time, Math.floor(Math.random() * 2 ** 31));
    if (Math.random() < 0.5) Atomics.wait(words, 11, 0, 7);
  }
  Atomics.store(words, 6 + number, Math.floor(performance.now() * 100));
}
