// Wrong: a test looks at the count when the workers are online, and not when they have ended.
import assert from "node:assert/strict";
import { once } from "node:events";
import { test } from "node:test";
import { Worker } from "node:worker_threads";

test("counts two", async () => {
  const words = new Int32Array(new SharedArrayBuffer(8));
  const started = () => new Worker(new URL("./adds.mjs", import.meta.url), { workerData: words });
  await Promise.all([started(), started()].map((each) => once(each, "online")));
  assert.equal(Atomics.load(words, 0), 2);
});
