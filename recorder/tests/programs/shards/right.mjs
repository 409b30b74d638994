// Right: each worker takes the lock of the shard in which it counts.
import { run } from "./threads.mjs";

await run([0, 0]);
