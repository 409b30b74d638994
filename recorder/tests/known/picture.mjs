// Right: each agent brightens a row of its own; whose row is ready last makes them all brighter still.

export const setup = { agents: 3, buffers: [4, 12] };

const WIDTH = 4;

export function init(buffers) {
  new Uint8ClampedArray(buffers[1]).set([0, 100, 200, 250, 0, 100, 200, 250, 0, 100, 200, 250]);
}

export default function agent({ buffers, agent, agents }) {
  const ready = new Int32Array(buffers[0]);
  const pixels = new Uint8ClampedArray(buffers[1]);
  const row = pixels.subarray(agent * WIDTH, (agent + 1) * WIDTH);
  row.forEach((pixel, at) => {
    row[at] = pixel * 1.1;
  });
  if (Atomics.add(ready, 0, 1) < agents - 1) return;
  for (const [at, pixel] of pixels.entries()) pixels[at] = pixel + 20;
}

export function check(buffers) {
  const pixels = new Uint8ClampedArray(buffers[1]).join();
  if (pixels !== "20,130,240,255,20,130,240,255,20,130,240,255") throw new Error(`the pixels are ${pixels}`);
}

export const known = { endings: ["finished"] };
