// Right: two agents take turns at a series of floats; the turn is a word that each waits for.

export const setup = { agents: 2, buffers: [4, 24, 8] };

export default function agent({ buffers, agent }) {
  const turn = new Int32Array(buffers[0]);
  const series = new Float64Array(buffers[1]);
  const last = new Float32Array(buffers[2], 4);
  for (let at = agent; at < 3; at += 2) {
    for (let seen = Atomics.load(turn, 0); seen !== at; seen = Atomics.load(turn, 0)) Atomics.wait(turn, 0, seen);
    series[at] = (at === 0 ? 0.1 : series[at - 1]) * 2;
    last[0] = series[at];
    Atomics.store(turn, 0, at + 1);
    Atomics.notify(turn, 0);
  }
}

export function check(buffers) {
  const last = new Float64Array(buffers[1])[2];
  if (last !== 0.8 || new Float32Array(buffers[2])[1] !== Math.fround(0.8)) throw new Error(`the last is ${last}`);
}

export const known = { endings: ["finished"] };
