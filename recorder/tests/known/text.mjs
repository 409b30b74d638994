// Right: a text is encoded into shared bytes, its length stored behind it, and decoded by whom it is for.

export const setup = { agents: 2, buffers: [4, 16] };

const TEXT = "naïve – 零";

export default function agent({ buffers, agent }) {
  const length = new Int32Array(buffers[0]);
  const bytes = new Uint8Array(buffers[1]);
  if (agent === 0) {
    const { written } = new TextEncoder().encodeInto(TEXT, bytes);
    Atomics.store(length, 0, written);
    Atomics.notify(length, 0);
  } else {
    while (Atomics.load(length, 0) === 0) Atomics.wait(length, 0, 0);
    const text = new TextDecoder().decode(bytes.subarray(0, Atomics.load(length, 0)));
    if (text !== TEXT) throw new Error(`read ${text}`);
  }
}

export const known = { endings: ["finished"] };
