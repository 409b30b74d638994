// Wrong: the test looks at the count, and then sleeps until the bell, which may have rung meanwhile.
import assert from "node:assert/strict";
import { test } from "node:test";
import { Worker } from "node:worker_threads";

test("waits for the bell", async () => {
  const words = new Int32Array(new SharedArrayBuffer(8));
  const worker = new Worker(new URL("./adds.mjs", import.meta.url), { workerData: words });
  if (Atomics.load(words, 0) === 0) Atomics.wait(words, 1, 0);
  assert.equal(Atomics.load(words, 0), 1);
  await worker.terminate();
});
