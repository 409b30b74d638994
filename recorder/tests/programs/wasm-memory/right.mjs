// Right: main and a worker count in a WebAssembly memory that main made, with one call of Atomics each time.
import { count } from "./counters.mjs";

await count((words) => Atomics.add(words, 1, 1));
