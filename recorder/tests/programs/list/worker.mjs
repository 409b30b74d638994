// It makes lists of numbers, so many in each as `workerData` says, and posts them.
import { parentPort, workerData } from "node:worker_threads";
import { listOf } from "./list.mjs";

const { count, each } = workerData;
for (let sent = 0; sent < count; sent += each) parentPort.postMessage(listOf(Math.min(each, count - sent)));
