// Right: a readers-writer lock that prefers writers. A writer that waits marks the state, and no more readers come in.

export const setup = { agents: 4, buffers: [12], names: { STATE: 0, WAKE: 1, DATA: 2 } };

// STATE has 2 for each reader, and 1 if a writer waits; or WRITER. WAKE goes on when a writer may come in.
const [STATE, WAKE, DATA] = [0, 1, 2];
const WRITER = 2 ** 31 - 1;
const ROUNDS = 2;

function lockShared(words) {
  for (;;) {
    const state = Atomics.load(words, STATE);
    if (state % 2 !== 0) Atomics.wait(words, STATE, state);
    else if (Atomics.compareExchange(words, STATE, state, state + 2) === state) return;
  }
}

function unlockShared(words) {
  if (Atomics.sub(words, STATE, 2) === 3) wakeWriter(words);
}

function wakeWriter(words) {
  Atomics.add(words, WAKE, 1);
  Atomics.notify(words, WAKE, 1);
}

function lock(words) {
  for (;;) {
    let state = Atomics.load(words, STATE);
    if (state <= 1 && Atomics.compareExchange(words, STATE, state, WRITER) === state) return;
    if (state <= 1) continue;
    if (state % 2 === 0 && Atomics.compareExchange(words, STATE, state, state + 1) !== state) continue;
    const wake = Atomics.load(words, WAKE);
    state = Atomics.load(words, STATE);
    if (state > 1 && state % 2 !== 0) Atomics.wait(words, WAKE, wake);
  }
}

function unlock(words) {
  Atomics.store(words, STATE, 0);
  wakeWriter(words);
  Atomics.notify(words, STATE);
}

export default function agent({ buffers, agent: self }) {
  const words = new Int32Array(buffers[0]);
  for (let time = 0; time < ROUNDS; time += 1) {
    if (self >= 2) {
      lockShared(words);
      if (words[DATA] > 2 * ROUNDS) throw new Error(`it reads ${words[DATA]}`);
      unlockShared(words);
      continue;
    }
    lock(words);
    words[DATA] += 1;
    unlock(words);
  }
}

export const check = ([buffer]) => new Int32Array(buffer)[DATA] === 2 * ROUNDS;
