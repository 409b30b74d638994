// Wrong: seven cells are shared out in two halves that are both rounded up. The one in the middle may be two agents'.

export const setup = { agents: 2, buffers: [4, 14] };

export default function agent({ buffers }) {
  const next = new Int32Array(buffers[0]);
  const cells = new Int16Array(buffers[1]);
  const half = Math.ceil(cells.length / 2);
  for (let at = Atomics.add(next, 0, 1); at < 2; at = Atomics.add(next, 0, 1)) {
    if (at === 0) cells.fill(7, 0, half);
    else cells.set([1, 2, 3, 4], cells.length - half);
  }
}

export const known = { endings: ["finished", "race"], races: [["cells\\.fill\\(7", "cells\\.set\\(\\["]] };
