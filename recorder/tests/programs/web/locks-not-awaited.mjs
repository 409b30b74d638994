// Wrong: the callback of one worker returns no promise, so its lock is free before it has counted.
import { count } from "./locks-threads.mjs";

await count("not awaited", "under");
