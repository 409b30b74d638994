// Wrong: the flag that is tested isn't the word that is waited for. A notify between the two is missed.

export const setup = { agents: 2, buffers: [8, 4] };

const READY = 0;
const BELL = 1;

export default function agent({ buffers, agent }) {
  const words = new Int32Array(buffers[0]);
  const answer = new Float32Array(buffers[1]);
  if (agent === 0) {
    answer[0] = 1.5;
    Atomics.store(words, READY, 1);
    Atomics.notify(words, BELL);
  } else {
    if (Atomics.load(words, READY) === 0) Atomics.wait(words, BELL, 0);
    if (answer[0] !== 1.5) throw new Error(`the answer is ${answer[0]}`);
  }
}

export const known = { endings: ["finished", "deadlock"] };
