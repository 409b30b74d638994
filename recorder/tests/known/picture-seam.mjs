// Wrong: the halves are drawn by a counter, and each is blurred by its agent alone; but the pixel beside it is read
// too, which may be another agent's.

export const setup = { agents: 2, buffers: [4, 8] };

const HALF = 4;

export default function agent({ buffers }) {
  const next = new Int32Array(buffers[0]);
  const pixels = new Uint8ClampedArray(buffers[1]);
  for (let at = Atomics.add(next, 0, 1); at < 2; at = Atomics.add(next, 0, 1)) {
    const half = pixels.subarray(at * HALF, (at + 1) * HALF);
    const neighbour = pixels[at === 0 ? HALF : HALF - 1];
    half.fill((half[0] + neighbour) / 2 + 300);
  }
}

export const known = { endings: ["finished", "race"], races: [["neighbour = pixels", "half\\.fill"]] };
