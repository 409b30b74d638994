// Wrong: the flag is stored as a word, and loaded as the word's first byte. Atomics of two sizes order nothing.

export const setup = { agents: 2, buffers: [4, 8] };

export default function agent({ buffers, agent }) {
  const data = new Float64Array(buffers[1]);
  if (agent === 0) {
    data[0] = 42.5;
    Atomics.store(new Int32Array(buffers[0]), 0, 1);
  } else if (Atomics.load(new Uint8Array(buffers[0]), 0) === 1) {
    if (data[0] !== 42.5) throw new Error(`read ${data[0]}`);
  }
}

export const known = {
  endings: ["race"],
  races: [["Atomics\\.store\\(", "Atomics\\.load\\("], ["data\\[0\\] = 42", "data\\[0\\] !== 42"]],
};
