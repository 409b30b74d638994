// Right: each release wakes one thread, which looks again.
import { acquire } from "./permit.mjs";
import { use } from "./threads.mjs";

function release(words) {
  Atomics.add(words, 0, 1);
  Atomics.notify(words, 0, 1);
}

await use({ acquire, release });
