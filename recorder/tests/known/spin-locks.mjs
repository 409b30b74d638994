// Right: each account has a spin lock of one byte beside the others', and who needs two takes the lower one first.

export const setup = { agents: 3, buffers: [3, 24] };

class SpinLocks {
  constructor(bytes) {
    this.bytes = bytes;
  }

  lock(at) {
    while (Atomics.compareExchange(this.bytes, at, 0, 1) !== 0);
  }

  unlock(at) {
    Atomics.store(this.bytes, at, 0);
  }
}

export function init(buffers) {
  new Float64Array(buffers[1]).fill(10);
}

export default function agent({ buffers, agent, agents }) {
  const locks = new SpinLocks(new Uint8Array(buffers[0]));
  const accounts = new Float64Array(buffers[1]);
  const [from, to] = [agent, (agent + 1) % agents];
  locks.lock(Math.min(from, to));
  locks.lock(Math.max(from, to));
  accounts[from] -= agent + 1;
  accounts[to] += agent + 1;
  locks.unlock(from);
  locks.unlock(to);
}

export function check(buffers) {
  const accounts = new Float64Array(buffers[1]).join();
  if (accounts !== "12,9,9") throw new Error(`the accounts have ${accounts}`);
}

export const known = { endings: ["finished"] };
