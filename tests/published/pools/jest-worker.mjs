// jest-worker with threads: two of them do three tasks, and what they print comes by the pool's stream.

import assert from "node:assert/strict";
import { createRequire } from "node:module";
import { fileURLToPath } from "node:url";
import { FETCHED } from "../folder.mjs";

const require = createRequire(new URL("pools/node_modules/", FETCHED));
const { Worker: JestWorker } = require("jest-worker");
const tasks = fileURLToPath(new URL("jest-tasks.cjs", import.meta.url));
const pool = new JestWorker(tasks, { numWorkers: 2, enableWorkerThreads: true, exposedMethods: ["hello"] });
let printed = "";
pool.getStdout().on("data", (part) => { printed += part; });
const answers = await Promise.all(["a", "b", "c"].map((name) => pool.hello(name)));
assert.deepEqual(answers, ["hello a", "hello b", "hello c"]);
assert.deepEqual(await pool.end(), { forceExited: false });
assert.deepEqual(printed.trim().split("\n").sort(), ["says a", "says b", "says c"]);
