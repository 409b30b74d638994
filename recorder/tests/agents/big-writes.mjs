// Programs whose ordinary writes fit into a script in part only, or not at all. Each argument is one of them with its
// numbers, and each run of a worker is that of the next one; the last one goes on.

const PROGRAMS = {
  // One fills all bytes, and then calls see two words of them.
  fills: ({ agent, bytes, words }) => {
    if (agent !== 0) return;
    for (let at = 0; at < bytes.length; at += 1) bytes[at] = at % 251;
    Atomics.load(words, 5);
    Atomics.add(words, 100, 1);
  },
  // All words are written again and again; each time a call sees one that no call has seen before.
  refills: ({ agent, words }, rounds) => {
    if (agent !== 0) return;
    for (let round = 1; round <= rounds; round += 1) {
      words.fill(round);
      Atomics.load(words, 3 * round);
    }
  },
  // So many calls, each on a word that was written just before; then writes to words that calls see, or don't.
  pairs: ({ agent, words }, calls, seen, unseen) => {
    if (agent !== 0) return;
    for (let call = 0; call < calls; call += 1) {
      words[call % 7] = call + 1;
      Atomics.load(words, call % 7);
    }
    for (let more = 0; more < seen; more += 1) words[more] = 7;
    for (let more = 0; more < unseen; more += 1) words[8 + more] = 8;
  },
  // The agent's own calls alone: each returns something else, on one of 50 words in turn.
  calls: ({ agent, words }, calls) => {
    if (agent !== 0) return;
    for (let call = 0; call < calls; call += 1) {
      words[60] = call + 1;
      Atomics.add(words, call % 50, 1);
    }
  },
  // Many words that calls have seen are written for so many rounds. Then both write to one word.
  overwhelms: ({ agent, words }, rounds) => {
    const large = new BigInt64Array(words.buffer);
    for (let at = 0; agent === 0 && at < 400; at += 1) Atomics.load(large, at);
    for (let round = 1; agent === 0 && round <= rounds; round += 1) {
      large.fill(BigInt(round), 0, 400);
      Atomics.load(large, 0);
    }
    words[2_000] = agent;
    Atomics.load(large, 4_000);
  },
};

let runs = 0;

export default function agent({ buffers, agent, args }) {
  const [name, ...numbers] = args[Math.min(runs, args.length - 1)].split(" ");
  runs += 1;
  const words = new Int32Array(buffers[0]);
  const bytes = new Uint8Array(buffers[0]);
  PROGRAMS[name]({ agent, words, bytes }, ...numbers.map(Number));
}
