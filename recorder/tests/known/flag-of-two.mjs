// Wrong: two write a part each and set the same flag. Who finds it set comes after the one whose store it read, and
// not after the other one. A byte for each would do.

export const setup = { agents: 3, buffers: [4, 2] };

export default function agent({ buffers, agent }) {
  const done = new Int32Array(buffers[0]);
  const parts = new Uint8Array(buffers[1]);
  if (agent < 2) {
    parts[agent] = agent + 1;
    Atomics.store(done, 0, 1);
    Atomics.notify(done, 0);
  } else {
    while (Atomics.load(done, 0) === 0) Atomics.wait(done, 0, 0);
    if (parts[0] + parts[1] > 3) throw new Error(`read ${parts}`);
  }
}

export const known = {
  endings: ["finished", "race"],
  races: [["parts\\[agent\\] = ", "parts\\[0\\] \\+ parts\\[1\\]"]],
};
