// Wrong: a release wakes a sleeper only if there was no permit, so of two quick releases the second wakes nobody.
import { acquire } from "./permit.mjs";
import { use } from "./threads.mjs";

function release(words) {
  if (Atomics.add(words, 0, 1) === 0) Atomics.notify(words, 0, 1);
}

await use({ acquire, release });
