// Wrong: the slot is given free before the byte is copied out, and the other agent may write it anew.

export { default, setup } from "../../examples/ring-frees-first.agents.mjs";

export const known = {
  endings: ["finished", "race", "failed"],
  races: [["slots\\[tail % slots\\.length\\] = byte", "return slots\\[head % slots\\.length\\]"]],
};
