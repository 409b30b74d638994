// Agents that share a lock. Word 2 says how far from the end of its stack agent 0 asks for something before, in frames,
// and word 4 says what it asks for.

export const ASKS = {
  add: (words) => Atomics.add(words, 3, 1),
  wait: (words) => Atomics.wait(words, 3, 0, 5),
  notify: (words) => Atomics.notify(words, 3),
  exchange: (words) => Atomics.exchange(words, { valueOf: () => 3 }, "0.5"),
  refuse: (words) => Atomics.waitAsync(words, 3, 0),
};

/** Goes down to the end of the stack, and asks on the way back. */
function askDeep(depth, ask) {
  let frames = 0;
  let hasAsked = false;
  const deeper = () => {
    try {
      deeper();
    } catch (error) {
      frames += 1;
      if (hasAsked || frames < depth) throw error;
      hasAsked = true;
      ask();
    }
  };
  try {
    deeper();
  } catch {
    // The stack came to its end while it asked: it goes on as if it hadn't.
  }
}

export default function agent({ buffers, agent: number }) {
  const words = new Int32Array(buffers[0]);
  const depth = words[2];
  const ask = Object.values(ASKS)[words[4]];
  if (number === 0 && depth > 0) askDeep(depth, () => ask(words));
  for (let time = 0; time < 2; time += 1) {
    while (Atomics.exchange(words, 0, 1) !== 0) Atomics.wait(words, 0, 1);
    words[1] += number;
    Atomics.store(words, 0, 0);
    Atomics.notify(words, 0, 1);
  }
}
