// Agents that say themselves how many they are.

export const setup = { agents: 2, buffers: [4, 8], noBlock: [1] };

export default function agent({ buffers, agent: number, agents, args }) {
  const own = new Int32Array(buffers[number]);
  Atomics.store(own, 0, agents + args.length);
  if (number === 1) {
    try {
      Atomics.wait(own, 1, 0);
    } catch (error) {
      Atomics.store(own, 1, error instanceof TypeError ? 1 : 2);
    }
  }
}
