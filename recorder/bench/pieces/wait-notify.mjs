// Right: the first example of every page about wait and notify. One agent sleeps on a word, and another one sets it.

export const setup = { agents: 2, buffers: [8], names: { WORD: 0, NOTE: 1 } };

const WORD = 0;
const NOTE = 1;
const VALUE = 123;

function sleeper(words) {
  Atomics.wait(words, WORD, 0);
  const value = Atomics.load(words, WORD);
  if (value !== VALUE) throw new Error(`it was woken, and the word is ${value}`);
  if (words[NOTE] !== 2 * VALUE) throw new Error(`it was woken, and the note is ${words[NOTE]}`);
}

function waker(words) {
  words[NOTE] = 2 * VALUE;
  Atomics.store(words, WORD, VALUE);
  Atomics.notify(words, WORD, 1);
}

export default function agent({ buffers, agent: self }) {
  const words = new Int32Array(buffers[0]);
  if (self === 0) sleeper(words);
  else waker(words);
}
