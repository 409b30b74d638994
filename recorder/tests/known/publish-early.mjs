// Wrong: the flag is set before the data. Only who waited until the notify is safe.

export const setup = { agents: 2, buffers: [4, 8] };

export default function agent({ buffers, agent }) {
  const ready = new Int32Array(buffers[0]);
  const data = new Float64Array(buffers[1]);
  if (agent === 0) {
    Atomics.store(ready, 0, 1);
    data[0] = 42.5;
    Atomics.notify(ready, 0);
  } else {
    while (Atomics.load(ready, 0) === 0) Atomics.wait(ready, 0, 0);
    if (data[0] !== 42.5) throw new Error(`read ${data[0]}`);
  }
}

export const known = { endings: ["finished", "race"], races: [["data\\[0\\] = 42", "data\\[0\\] !== 42"]] };
