// Two agents send a number each, and a third one receives two. Each also counts in an element of its own.

import { receive, send } from "./mailbox.mjs";

export const setup = { agents: 3, buffers: [8, 8], names: { STATE: 0, VALUE: 1, done: ["Uint16", 1] } };

/** @param {{ agent: number, buffers: SharedArrayBuffer[] }} given */
export default function run({ agent, buffers: [box, counts] }) {
  const words = new Int32Array(box);
  const done = new Uint16Array(counts);
  if (agent < 2) send(words, 10 + agent);
  else done[3] = receive(words) + receive(words);
  done[agent] += 1;
}
