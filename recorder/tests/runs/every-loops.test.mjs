// The loops that stand for the engine's while agents are learned do what the engine's do.

import assert from "node:assert/strict";
import { once } from "node:events";
import { test } from "node:test";
import { Worker } from "node:worker_threads";
import graphFlags from "../../lib/program/node/graph-flags.cjs";

const WORKER = new URL("../helpers/loops-worker.mjs", import.meta.url);

test("loops do the same as the engine's, for random lists and callbacks", async () => {
  const execArgv = [...graphFlags.GRAPH_FLAGS, "--no-warnings"];
  const [differences] = await once(new Worker(WORKER, { workerData: { count: 300 }, execArgv }), "message");
  assert.deepEqual(differences.slice(0, 3), []);
});
