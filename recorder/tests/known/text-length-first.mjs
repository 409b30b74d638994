// Wrong: the length is stored before the text is there.

export const setup = { agents: 2, buffers: [4, 8] };

export default function agent({ buffers, agent }) {
  const length = new Int32Array(buffers[0]);
  const bytes = new Uint8Array(buffers[1]);
  if (agent === 0) {
    const text = new TextEncoder().encode("hello");
    Atomics.store(length, 0, text.length);
    bytes.set(text);
  } else {
    const count = Atomics.load(length, 0);
    if (count > 0) new TextDecoder().decode(bytes.slice(0, count));
  }
}

export const known = {
  endings: ["finished", "race"],
  races: [["bytes\\.set\\(text\\)", "bytes\\.slice\\(0, count\\)"]],
};
