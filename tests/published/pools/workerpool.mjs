// workerpool with threads: two of them double numbers, and one task fails.

import assert from "node:assert/strict";
import { createRequire } from "node:module";
import { fileURLToPath } from "node:url";
import { FETCHED } from "../folder.mjs";

const require = createRequire(new URL("pools/node_modules/", FETCHED));
// The threads get this environment.
process.env.WORKERPOOL = require.resolve("workerpool");
const tasks = fileURLToPath(new URL("workerpool-tasks.cjs", import.meta.url));
const pool = require("workerpool").pool(tasks, { workerType: "thread", maxWorkers: 2 });
const all = await Promise.all([1, 2, 3].map((number) => pool.exec("double", [number])));
assert.deepEqual(all, [2, 4, 6]);
await assert.rejects(async () => { await pool.exec("fails"); }, { message: "no" });
await pool.terminate();
