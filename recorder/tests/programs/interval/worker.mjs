// It stores once, and notifies at both words.
import { workerData as words } from "node:worker_threads";

Atomics.store(words, 0, 1);
Atomics.notify(words, 0);
Atomics.notify(words, 1);
