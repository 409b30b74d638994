// Right: looking for an idle worker, taking it and taking the task are one step.
import { square } from "./pool.mjs";

await square((pool) => {
  while (pool.idle.length > 0 && pool.tasks.length > 0) pool.give(pool.idle.shift(), pool.tasks.shift());
});
