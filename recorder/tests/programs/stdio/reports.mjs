// It takes what is to be done until there is nothing left, and prints it.
import { workerData } from "node:worker_threads";

const { words, name } = workerData;
for (let at = Atomics.add(words, 0, 1); at < words[1]; at = Atomics.add(words, 0, 1)) console.log(`${at} ${name}`);
