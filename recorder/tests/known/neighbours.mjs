// Right: bytes side by side in one word, each an agent's own; one of them belongs to Atomics.

export const setup = { agents: 3, buffers: [4] };

export default function agent({ buffers, agent }) {
  const bytes = new Uint8Array(buffers[0]);
  for (let time = 0; time < 2; time += 1) {
    bytes[agent] += agent + 1;
    Atomics.add(bytes, 3, 1);
  }
}

export function check(buffers) {
  const bytes = new Uint8Array(buffers[0]).join();
  if (bytes !== "2,4,6,6") throw new Error(`the bytes are ${bytes}`);
}

export const known = { endings: ["finished"] };
