// It throws when the word isn't set.
import { workerData as words } from "node:worker_threads";

if (Atomics.load(words, 0) !== 1) throw new Error("the word isn't set");
