// Wrong: Peterson's lock with ordinary flags. They race, and what they guard races too, since they order nothing.

export const setup = { agents: 2, buffers: [4, 2, 4] };

export default function agent({ buffers, agent }) {
  const turn = new Int32Array(buffers[0]);
  const flags = new Uint8Array(buffers[1]);
  const count = new Uint32Array(buffers[2]);
  const other = 1 - agent;
  flags[agent] = 1;
  Atomics.store(turn, 0, other);
  while (flags[other] === 1 && Atomics.load(turn, 0) === other);
  count[0] += 1;
  flags[agent] = 0;
}

export const known = {
  endings: ["race"],
  races: [
    ["flags\\[agent\\] = 1", "while \\(flags"],
    ["flags\\[agent\\] = 0", "while \\(flags"],
    ["count\\[0\\] \\+= 1", "count\\[0\\] \\+= 1"],
  ],
};
