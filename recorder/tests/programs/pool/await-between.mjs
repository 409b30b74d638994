// Wrong: between the look at the idle worker and the taking of it there is an await, so two tasks go to one worker.
import { square } from "./pool.mjs";

await square(async (pool) => {
  const { idle, tasks } = pool;
  while (idle.length > 0 && tasks.length > 0) {
    const [worker] = idle;
    await null;
    const task = tasks.shift();
    if (task === undefined) return;
    idle.splice(idle.indexOf(worker), 1);
    pool.give(worker, task);
  }
});
