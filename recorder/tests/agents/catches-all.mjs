// Agents whose code catches everything, as some servers do. Agent 1 serves jobs in a loop. Agent 0 waits once for each,
// without a loop, so that a late notify ends its wait too early: then it throws, and the server's run is over. By the
// first argument the server's code catches this in a loop for ever, once, or and makes no call any more.

export const setup = { agents: 2, buffers: [16], names: { JOB: 0, DONE: 1 } };

const JOB = 0;
const DONE = 1;
const COUNT = 2;
const LAST_JOB = 3;

/** Awaits the next job, and does it. @returns {boolean} whether there are others */
function serveOnce(words) {
  Atomics.wait(words, JOB, 0);
  const job = Atomics.exchange(words, JOB, 0);
  if (job === 0) return true;
  words[COUNT] += 1;
  Atomics.store(words, DONE, job);
  Atomics.notify(words, DONE, 1);
  return job !== LAST_JOB;
}

function servesForEver(words) {
  for (;;) {
    try {
      if (!serveOnce(words)) return;
    } catch (error) {
      console.error(`error in the loop: ${error.message}`);
    }
  }
}

function servesAndCleans(words) {
  try {
    while (serveOnce(words));
  } finally {
    try {
      Atomics.store(words, JOB, 0);
    } catch (error) {
      console.error(`error at the end: ${error.message}`);
    }
  }
}

function servesAndStays(words) {
  try {
    while (serveOnce(words));
  } catch {
    for (;;);
  }
}

const SERVERS = { loop: servesForEver, once: servesAndCleans, stay: servesAndStays };

/** How often the module was loaded for the agent that serves. */
let runs = 0;

export default function agent({ buffers: [buffer], agent, args: [how = "loop", prints] }) {
  const words = new Int32Array(buffer);
  runs += 1;
  if (agent === 1) {
    if (prints !== undefined) console.error(`serves run ${runs} of its worker`);
    return SERVERS[how](words);
  }
  for (let job = 1; job <= LAST_JOB; job += 1) {
    const before = Atomics.load(words, DONE);
    Atomics.store(words, JOB, job);
    Atomics.notify(words, JOB, 1);
    Atomics.wait(words, DONE, before);
    if (Atomics.load(words, DONE) !== job) throw new Error(`job ${job} isn't done`);
  }
}
