// Agents that settle a promise of their module's, where the module has said before what comes after it, which nobody
// does.

/** What a module says while it is loaded. */
const WAYS = {
  then: (promise) => void promise.then(() => {
    throw new Error("never seen");
  }),
  catches: (promise) => void promise.catch(() => {}),
  awaits: (promise) => void (async () => {
    await promise;
    throw new Error("never seen");
  })(),
  all: (promise) => void Promise.all([promise]),
  nothing: () => {},
  another: () => void new Promise(() => {}).then(() => {}),
};
export const EARLIER = Object.keys(WAYS);

/** Those that say nothing of the promise that is settled. */
export const NOTHING_AFTER = ["nothing", "another"];

const settling = Object.fromEntries(Object.entries(WAYS).map(([name, say]) => {
  let settle;
  say(new Promise((done) => {
    settle = done;
  }));
  return [name, settle];
}));

let runs = 0;

export const setup = { agents: 2, buffers: [4] };

export default function agent({ buffers, agent: number, args: [way] }) {
  runs += 1;
  Atomics.add(new Int32Array(buffers[0]), 0, 1);
  if (number === 1 && runs >= 2) settling[way](7);
}
