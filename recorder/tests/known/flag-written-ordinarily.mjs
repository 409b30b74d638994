// Wrong: the flag is read by a load, but set without Atomics. A load that finds it set comes after nothing. Only who
// waited until the notify is safe, and even then the flag isn't.

export const setup = { agents: 2, buffers: [8, 8] };

const READY = 0;
const BEGUN = 1;

export default function agent({ buffers, agent }) {
  const words = new Int32Array(buffers[0]);
  const data = new Float64Array(buffers[1]);
  if (agent === 0) {
    Atomics.store(words, BEGUN, 1);
    data[0] = 42.5;
    words[READY] = 1;
    Atomics.notify(words, READY);
  } else {
    while (Atomics.load(words, READY) === 0) Atomics.wait(words, READY, 0);
    if (data[0] !== 42.5) throw new Error(`read ${data[0]}`);
  }
}

export const known = {
  endings: ["race"],
  races: [["words\\[READY\\] = 1", "while \\(Atomics\\.load"], ["data\\[0\\] = 42", "data\\[0\\] !== 42"]],
};
