// A lock, a semaphore with a timeout and a queue, each for any number of rounds: an agent chooses in each round what it
// does. Three agents count under the lock and share one permit, and give up if they get none in time. Agent 0 also puts
// the numbers from 1 on into the queue. When agent 1 has made its rounds, it takes them.

import { BoundedQueue } from "./bounded-queue.mjs";
import { countTogether } from "./count-together.mjs";
import { ThreeStateMutex } from "./mutex-three-state.mjs";
import { Semaphore } from "./semaphore.mjs";

const END = -1;

/** @type {import("sabsim").Setup} */
export const setup = {
  agents: 3, buffers: [36], names: { LOCK: 0, COUNT: 1, COUNTED: 2, PERMITS: 3, INSIDE: 4 },
};

/** @type {import("sabsim").Agent} */
export default function agent({ buffers: [buffer], agent, again, choose }) {
  const words = Array.from({ length: 5 }, (_, at) => new Int32Array(buffer, 4 * at, 1));
  const [lock, count, counted, permits, inside] = words;
  const mutex = new ThreeStateMutex(lock);
  const semaphore = new Semaphore(permits);
  const queue = new BoundedQueue(new Int32Array(buffer, 20));
  let put = 0;
  const counts = () => {
    countTogether(mutex, count, 1);
    Atomics.add(counted, 0, 1);
  };
  const goesInside = () => {
    if (!semaphore.acquire(50)) return;
    if (Atomics.add(inside, 0, 1) > 0) throw new Error("two agents are inside, and there is one permit");
    Atomics.sub(inside, 0, 1);
    semaphore.release();
  };
  const puts = () => queue.put(put += 1);
  const does = agent === 0 ? [counts, goesInside, puts] : [counts, goesInside];
  if (agent === 0) semaphore.release();
  while (again()) does[choose(does.length)]();
  if (agent === 0) queue.put(END);
  if (agent !== 1) return;
  for (let taken = queue.take(), next = 1; taken !== END; taken = queue.take(), next += 1) {
    if (taken !== next) throw new Error(`took ${taken} where ${next} comes next`);
  }
}

/** @type {import("sabsim").WithBuffers} */
export const check = ([buffer]) => {
  const [, count, counted] = new Int32Array(buffer);
  return count === counted;
};
