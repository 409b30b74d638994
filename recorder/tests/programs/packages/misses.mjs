// Wrong: the package's bell doesn't remember that it has rung, so main may wait for what has been.
import { Worker } from "node:worker_threads";
import { Bell } from "small-gate";

const bell = new Bell(new SharedArrayBuffer(4));
new Worker(new URL("./rings.mjs", import.meta.url), { workerData: bell.words.buffer });
bell.wait();
