// Right: synchronous calls of a server. One word says whose move it is, and both wait at it again until it is theirs.

export const setup = { agents: 2, buffers: [4, 8], names: { STATE: 0, data: ["Int32", 1] } };

const STATE = 0;
const QUESTION = 0;
const ANSWER = 1;
const ASKED = 1;
const ANSWERED = 2;
const CALLS = 4;
const TIMEOUT = 1_000;

/** The client's: asks, and waits until the answer is there. */
function call(words, data, question) {
  data[QUESTION] = question;
  Atomics.store(words, STATE, ASKED);
  Atomics.notify(words, STATE);
  while (Atomics.load(words, STATE) !== ANSWERED) Atomics.wait(words, STATE, ASKED, TIMEOUT);
  return data[ANSWER];
}

/** The server's: waits until something is asked, and answers. */
function serve(words, data) {
  let state = Atomics.load(words, STATE);
  while (state !== ASKED) {
    Atomics.wait(words, STATE, state, TIMEOUT);
    state = Atomics.load(words, STATE);
  }
  data[ANSWER] = data[QUESTION] ** 2;
  Atomics.store(words, STATE, ANSWERED);
  Atomics.notify(words, STATE);
}

export default function agent({ buffers, agent: self }) {
  const words = new Int32Array(buffers[0]);
  const data = new Int32Array(buffers[1]);
  for (let question = 1; question <= CALLS; question += 1) {
    if (self === 1) {
      serve(words, data);
      continue;
    }
    const answer = call(words, data, question);
    if (answer !== question ** 2) throw new Error(`the answer to ${question} is ${answer}`);
  }
}
