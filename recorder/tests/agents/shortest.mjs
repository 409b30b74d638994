// Wrong programs whose shortest failing run is known by reasoning; `args[0]` says which one.

export const setup = { agents: 2, buffers: [32] };

const READY = 0;
const BELL = 1;
const COUNT = 2;
const OWN = 3;

/** Calls that concern no other agent. */
const alone = (words, agent, times) => {
  for (let time = 0; time < times; time += 1) Atomics.add(words, OWN + agent, 1);
};

const programs = {
  /** Agent 0 tests a flag and waits for a bell; agent 1 raises the flag and rings once. */
  bell(words, agent) {
    alone(words, agent, 4);
    if (agent === 1) {
      Atomics.store(words, READY, 1);
      Atomics.notify(words, BELL, 1);
    } else if (Atomics.load(words, READY) === 0) Atomics.wait(words, BELL, 0);
  },

  /** Two agents count to two each, by a load and a store; a third one counts for itself. */
  count(words, agent) {
    if (agent === 2) alone(words, agent, 6);
    else for (let time = 0; time < 2; time += 1) Atomics.store(words, COUNT, Atomics.load(words, COUNT) + 1);
  },

  /** Agent 0 counts by two calls, and throws where somebody else has counted between; agent 2 counts for itself. */
  assertion(words, agent) {
    if (agent === 2) alone(words, agent, 6);
    else if (agent === 1) Atomics.add(words, COUNT, 1);
    else {
      alone(words, agent, 2);
      const count = Atomics.load(words, COUNT);
      if (Atomics.exchange(words, COUNT, count + 1) !== count) throw new Error(`it was ${count}, and isn't now`);
      alone(words, agent, 2);
    }
  },

  /** Each agent takes two locks, the two in another order. */
  locks(words, agent) {
    const order = agent === 0 ? [READY, BELL] : [BELL, READY];
    alone(words, agent, 3);
    for (const lock of order) while (Atomics.exchange(words, lock, 1) !== 0) Atomics.wait(words, lock, 1);
    for (const lock of order) {
      Atomics.store(words, lock, 0);
      Atomics.notify(words, lock, 1);
    }
  },

  /** Agent 1's worker dies. */
  dies(words, agent) {
    alone(words, agent, 2);
    if (agent === 1) process.exit(3);
  },
};

export default function agent({ buffers, agent: number, args }) {
  programs[args[0]](new Int32Array(buffers[0]), number);
}

export function check([buffer], { args }) {
  if (args[0] !== "count") return;
  const count = new Int32Array(buffer)[COUNT];
  if (count !== 4) throw new Error(`the count is ${count}`);
}
