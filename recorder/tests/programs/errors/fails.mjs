// It fails the first two times.
import { workerData as words } from "node:worker_threads";

if (Atomics.add(words, 0, 1) < 2) throw new RangeError("too early");
