// Right: a request is either answered or taken back. The compareExchange that fails to take it back has read that the
// answer is there.

export const setup = { agents: 2, buffers: [4, 8] };

const OPEN = 0;
const ANSWERED = 1;
const TAKEN_BACK = 2;

export default function agent({ buffers, agent }) {
  const state = new Int32Array(buffers[0]);
  const answer = new BigUint64Array(buffers[1]);
  if (agent === 0) {
    answer[0] = 2n ** 63n;
    Atomics.compareExchange(state, 0, OPEN, ANSWERED);
  } else if (Atomics.compareExchange(state, 0, OPEN, TAKEN_BACK) === ANSWERED) {
    if (answer[0] !== 2n ** 63n) throw new Error(`the answer is ${answer[0]}`);
  }
}

export const known = { endings: ["finished"] };
