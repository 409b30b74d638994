// Right: the worker passes over the buffer that main has said it reads, and main looks again after saying so.
import { run } from "./threads.mjs";

await run((words, at) => Atomics.load(words, 1) !== at);
