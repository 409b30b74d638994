// Right: a queue of audio frames in two channels, without sleeping. One slot stays free, so that full isn't empty.

export const setup = {
  agents: 2, buffers: [8, 24, 24], names: { READ: 0, WRITE: 1, left: ["Float32", 1], right: ["Float32", 2] },
};

const READ = 0;
const WRITE = 1;
const LENGTH = 6;
const BLOCK = 2;
const BLOCKS = 4;

/** Puts a block of frames, or returns false if there is no room. */
function push(words, [left, right], frame) {
  const write = Atomics.load(words, WRITE);
  const room = (Atomics.load(words, READ) - write + LENGTH - 1) % LENGTH;
  if (room < BLOCK) return false;
  for (let at = 0; at < BLOCK; at += 1) {
    left[(write + at) % LENGTH] = frame + at;
    right[(write + at) % LENGTH] = -(frame + at);
  }
  Atomics.store(words, WRITE, (write + BLOCK) % LENGTH);
  return true;
}

/** Takes a block of frames, or returns false if there isn't one. */
function pull(words, [left, right], frame) {
  const read = Atomics.load(words, READ);
  const there = (Atomics.load(words, WRITE) - read + LENGTH) % LENGTH;
  if (there < BLOCK) return false;
  for (let at = 0; at < BLOCK; at += 1) {
    const [one, other] = [left[(read + at) % LENGTH], right[(read + at) % LENGTH]];
    if (one !== frame + at || other !== -one) throw new Error(`frame ${frame + at} is ${one}, ${other}`);
  }
  Atomics.store(words, READ, (read + BLOCK) % LENGTH);
  return true;
}

export default function agent({ buffers, agent: self }) {
  const words = new Int32Array(buffers[0]);
  const channels = [new Float32Array(buffers[1]), new Float32Array(buffers[2])];
  const move = self === 0 ? push : pull;
  for (let block = 0; block < BLOCKS; block += 1) {
    while (!move(words, channels, 1 + BLOCK * block));
  }
}
