// Functions that stand for those of node and the engine look like them.

import assert from "node:assert/strict";
import { once } from "node:events";
import { test } from "node:test";
import { Worker } from "node:worker_threads";
import { looks } from "../agents/looks.mjs";

test("functions of a watched realm have the names, lengths and other properties of the engine's", async () => {
  const worker = new Worker(new URL("../agents/looks-worker.mjs", import.meta.url));
  const [watched] = await once(worker, "message");
  await worker.terminate();
  const own = looks();
  assert.ok(Object.keys(own).length > 400, "few functions were looked at");
  assert.deepEqual(watched, own);
});
