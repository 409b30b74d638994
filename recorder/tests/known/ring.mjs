// Right: a ring for one who pushes and one who pops. The bytes lie ordinarily, the two indices are atomic.

export { default, setup } from "../../examples/ring.agents.mjs";

export const known = { endings: ["finished"] };
