// It rings the bell.
import { workerData } from "node:worker_threads";
import { Bell } from "small-gate";

new Bell(workerData).ring();
