// Wrong: the data is written when the notify is made already.

export const setup = { agents: 2, buffers: [4, 8] };

export default function agent({ buffers, agent }) {
  const bell = new Int32Array(buffers[0]);
  const data = new Float64Array(buffers[1]);
  if (agent === 0) {
    const answer = Atomics.wait(bell, 0, 0, 50);
    if (answer === "ok" && data[0] !== 42.5) throw new Error(`read ${data[0]}`);
  } else {
    Atomics.notify(bell, 0);
    data[0] = 42.5;
  }
}

export const known = { endings: ["finished", "race"], races: [["data\\[0\\] = 42", "data\\[0\\] !== 42"]] };
