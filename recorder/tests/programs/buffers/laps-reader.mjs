// Wrong: the worker doesn't look which buffer main reads, so it may come round to that one while main reads it.
import { run } from "./threads.mjs";

await run(() => true);
