// A ring of floats with its control words in the same buffer, which frees a slot before it has read it.

const SAMPLES = { kind: "Float64", buffer: 0, offset: 8, length: 2 };

export const setup = { agents: 2, buffers: [24], names: { HEAD: 0, TAIL: 1, samples: SAMPLES } };

const HEAD = 0;
const TAIL = 1;

export default function agent({ buffers: [buffer], agent }) {
  const words = new Int32Array(buffer, 0, 2);
  const samples = new Float64Array(buffer, 8, 2);
  for (let at = 0; at < 4; at += 1) {
    if (agent === 0) {
      while (at - Atomics.load(words, HEAD) === samples.length) Atomics.wait(words, HEAD, at - samples.length);
      samples[at % samples.length] = at + 0.25;
      Atomics.store(words, TAIL, at + 1);
      Atomics.notify(words, TAIL, 1);
    } else {
      while (Atomics.load(words, TAIL) === at) Atomics.wait(words, TAIL, at);
      Atomics.store(words, HEAD, at + 1);
      Atomics.notify(words, HEAD, 1);
      const sample = samples[at % samples.length];
      if (sample !== at + 0.25) throw new Error(`${sample} in place of ${at + 0.25}`);
    }
  }
}
