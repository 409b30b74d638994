// Wrong: who isn't woken in time looks at the flag again and again, without Atomics. An engine may read it once, and
// spin for ever; here the other agent never gets its turn. Where the flag is set already, the reads race.

export const setup = { agents: 2, buffers: [4, 1] };

export default function agent({ buffers, agent }) {
  const bell = new Int32Array(buffers[0]);
  const flag = new Uint8Array(buffers[1]);
  if (agent === 0) {
    Atomics.load(bell, 0);
    flag[0] = 1;
    Atomics.notify(bell, 0);
  } else {
    Atomics.wait(bell, 0, 0, 10);
    while (flag[0] === 0);
  }
}

export const known = {
  endings: ["finished", "race", "limit"], within: 250, races: [["flag\\[0\\] = 1", "while \\(flag"]],
};
