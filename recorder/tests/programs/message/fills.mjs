// It fills the numbers.
import { workerData as data } from "node:worker_threads";

for (let at = 0; at < 4; at += 1) data[at] = at / 2;
