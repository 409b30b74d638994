// Agents of which one reads more, element by element, than a small log has room for; behind that it reads a byte that
// the other one may be writing.

const ROUNDS = 10;
const BYTES = 1_000;

export const setup = { agents: 2, buffers: [BYTES, 8] };

export default function agent({ buffers: [large, small], agent: number, args: [way] }) {
  const bytes = new Uint8Array(large);
  const words = new Int32Array(small);
  if (number === 1) {
    if (way === "races") bytes[0] = 1;
    Atomics.store(words, 1, 1);
    return;
  }
  // After a call the recorder notes the same reads once more.
  for (let round = 0; round < ROUNDS; round += 1) {
    for (let at = 1; at < BYTES; at += 1) if (bytes[at] !== 0) throw new Error(`byte ${at} was written`);
    Atomics.add(words, 0, 1);
  }
  if (bytes[0] > 1) throw new Error("byte 0 has another value");
}
