// Right: a record is filled, then its flag is set. Who finds the flag set, or is woken, finds the record.

export const setup = { agents: 3, buffers: [4, 24] };

export default function agent({ buffers, agent }) {
  const ready = new Int32Array(buffers[0]);
  const record = new Float64Array(buffers[1]);
  if (agent === 0) {
    record[0] = 0.5;
    record[1] = record[0] * 3;
    record[2] = -0;
    Atomics.store(ready, 0, 1);
    Atomics.notify(ready, 0);
  } else {
    Atomics.wait(ready, 0, 0);
    const [one, other, zero] = record;
    if (one !== 0.5 || other !== 1.5 || !Object.is(zero, -0)) throw new Error(`read ${one}, ${other}, ${zero}`);
  }
}

export const known = { endings: ["finished"] };
