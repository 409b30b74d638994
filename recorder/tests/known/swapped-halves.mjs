// Wrong: the writer fills the half that isn't shown, and shows it. The half after the next is the one that somebody
// may still read.

export const setup = { agents: 2, buffers: [4, 32] };

export default function agent({ buffers, agent }) {
  const shown = new Int32Array(buffers[0]);
  const halves = [new Float64Array(buffers[1], 0, 2), new Float64Array(buffers[1], 16, 2)];
  if (agent === 0) {
    for (const number of [0.5, 1.5]) {
      const next = 1 - Atomics.load(shown, 0);
      halves[next].fill(number);
      Atomics.store(shown, 0, next);
    }
  } else {
    const half = halves[Atomics.load(shown, 0)];
    if (half[0] !== half[1]) throw new Error(`read ${half}`);
  }
}

export const known = { endings: ["finished", "race"], races: [["\\.fill\\(number\\)", "half\\[0\\] !== half\\[1\\]"]] };
