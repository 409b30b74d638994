// Right: a parcel is handed on by an agent that never touches it: what it adds to the stage carries what it has read.

import { goOn, reach } from "./shared/stage.mjs";

export const setup = { agents: 3, buffers: [4, 12] };

export default function agent({ buffers, agent }) {
  const stage = new Int32Array(buffers[0]);
  const parcel = new Float32Array(buffers[1]);
  if (agent === 0) {
    parcel.set([1.5, 2.5, 3.5]);
    goOn(stage);
  } else if (agent === 1) {
    reach(stage, 1);
    goOn(stage);
  } else {
    reach(stage, 2);
    if (parcel.join() !== "1.5,2.5,3.5") throw new Error(`the parcel has ${parcel}`);
    parcel.fill(0);
  }
}

export const known = { endings: ["finished"] };
