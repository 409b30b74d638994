// It needs a table that isn't there.
import { workerData as words } from "node:worker_threads";

if (words[1] === 0) throw new Error("there is no table");
Atomics.store(words, 0, 1);
Atomics.notify(words, 0);
