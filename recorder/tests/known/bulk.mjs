// Right: whole ranges are handed over, by fill, set, copyWithin, subarray, slice, reverse and sort.

import { goOn, reach } from "./shared/stage.mjs";

export const setup = { agents: 2, buffers: [4, 16] };

export default function agent({ buffers, agent }) {
  const stage = new Int32Array(buffers[0]);
  const cells = new Uint16Array(buffers[1]);
  if (agent === 0) {
    cells.fill(9, 0, 4).set([3, 1, 2], 4);
    goOn(stage);
    reach(stage, 2);
    if (cells.join() !== "1,2,3,3,2,1,9,9") throw new Error(`read ${cells}`);
  } else {
    reach(stage, 1);
    const old = cells.slice(4, 7);
    cells.copyWithin(6, 0, 2).subarray(3, 6).set(old.sort().reverse());
    cells.set(cells.subarray(3, 6).map((cell) => 4 - cell).reverse(), 0);
    cells.subarray(0, 3).sort();
    goOn(stage);
  }
}

export const known = { endings: ["finished"] };
