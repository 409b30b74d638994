// Wrong: main and a worker count in a WebAssembly memory by a load and a store each time.
import { count } from "./counters.mjs";

await count((words) => {
  const before = Atomics.load(words, 1);
  Atomics.store(words, 1, before + 1);
});
