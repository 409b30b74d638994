// Right: a mailbox of one message. The reader waits with a time, and looks again when the time is up.

export const setup = { agents: 2, buffers: [4, 8], names: { STATE: 0, message: ["Int32", 1] } };

// Goes on when a message is put in, and when one is taken out: odd if there is one.
const STATE = 0;
const MESSAGES = 3;

/** Waits until the box is empty, and puts a message in. */
function send(words, message, number) {
  let state = Atomics.load(words, STATE);
  while (state % 2 !== 0) {
    Atomics.wait(words, STATE, state);
    state = Atomics.load(words, STATE);
  }
  message[0] = number;
  message[1] = -number;
  Atomics.store(words, STATE, state + 1);
  Atomics.notify(words, STATE, 1);
}

/** Waits for a message until the time is up, and returns undefined if there is none then. */
function receive(words, message, timeout) {
  let state = Atomics.load(words, STATE);
  if (state % 2 === 0) {
    Atomics.wait(words, STATE, state, timeout);
    state = Atomics.load(words, STATE);
  }
  if (state % 2 === 0) return undefined;
  const [number, other] = message;
  Atomics.store(words, STATE, state + 1);
  if (other !== -number) throw new Error(`the halves are ${number} and ${other}`);
  Atomics.notify(words, STATE, 1);
  return number;
}

export default function agent({ buffers, agent: self }) {
  const words = new Int32Array(buffers[0]);
  const message = new Int32Array(buffers[1]);
  for (let number = 1; number <= MESSAGES; number += 1) {
    if (self === 0) {
      send(words, message, number);
      continue;
    }
    let found = receive(words, message, 100);
    while (found === undefined) found = receive(words, message, 100);
    if (found !== number) throw new Error(`message ${number} is ${found}`);
  }
}
