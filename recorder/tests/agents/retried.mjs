// An agent that writes each byte at the end of its stack, and again on the way back until that succeeds: how far from
// the end it is differs from byte to byte.

export const setup = { agents: 1, buffers: [4, 60] };

export default function agent({ buffers }) {
  const words = new Int32Array(buffers[0]);
  const bytes = new Uint8Array(buffers[1]);
  let at = 0;
  let isDone = false;
  const writeDeep = () => {
    try {
      writeDeep();
    } catch {
      // Here is the end of the stack.
    }
    if (isDone) return;
    try {
      bytes[at] = 1;
      isDone = true;
    } catch {
      // The caller, which has more room, tries again.
    }
  };
  for (at = 0; at < bytes.length; at += 1) {
    isDone = false;
    writeDeep.apply(null, new Array(at % 97));
  }
  Atomics.add(words, 0, 1);
}
