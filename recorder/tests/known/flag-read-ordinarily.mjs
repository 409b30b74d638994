// Wrong: the flag is set by a store, but read without Atomics. Neither the flag nor the data behind it is safe.

export const setup = { agents: 2, buffers: [8, 8] };

const READY = 0;
const NAP = 1;

export default function agent({ buffers, agent }) {
  const words = new Int32Array(buffers[0]);
  const data = new Float64Array(buffers[1]);
  if (agent === 0) {
    data[0] = 42.5;
    Atomics.store(words, READY, 1);
  } else {
    while (words[READY] === 0) Atomics.wait(words, NAP, 0, 1);
    if (data[0] !== 42.5) throw new Error(`read ${data[0]}`);
  }
}

export const known = {
  endings: ["race"],
  races: [["Atomics\\.store\\(words, READY", "while \\(words"], ["data\\[0\\] = 42", "data\\[0\\] !== 42"]],
};
