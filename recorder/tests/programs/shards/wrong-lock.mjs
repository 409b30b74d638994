// Wrong: the second worker takes the lock of the next shard, and counts in this one.
import { run } from "./threads.mjs";

await run([0, 1]);
