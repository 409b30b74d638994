// Wrong: an ordinary record is marked as ready before its last field is written.

export const setup = { agents: 2, buffers: [4, 16] };

const READY = 0;

export default function agent({ buffers: [first, second], agent: self }) {
  const flag = new Int32Array(first);
  const fields = new Float64Array(second);
  if (self === 0) {
    fields[0] = 1.5;
    Atomics.store(flag, READY, 1);
    fields[1] = 2.5;
    return;
  }
  for (let look = 0; look < 3; look += 1) {
    if (Atomics.load(flag, READY) === 0) continue;
    if (fields[0] + fields[1] !== 4) throw new Error("a field is missing");
    return;
  }
}
