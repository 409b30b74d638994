// A thread that tries a lock.

import { workerData } from "node:worker_threads";
import { thread } from "./thread.mjs";

const { memory, module, at, lock } = workerData;
thread(memory, module, at)[`${lock}_thread`](at);
