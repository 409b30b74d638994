// Wrong: two tests at a time ask one worker, and each takes the first answer that comes for its own.
import assert from "node:assert/strict";
import { once } from "node:events";
import { after, describe, it } from "node:test";
import { Worker } from "node:worker_threads";

const code = "require('worker_threads').parentPort.on('message', async (n) => {"
  + "await new Promise((done) => setTimeout(done, n)); require('worker_threads').parentPort.postMessage(n * 2); });";
const worker = new Worker(code, { eval: true });
after(() => worker.terminate());

describe("doubles", { concurrency: true }, () => {
  for (const number of [3, 2]) {
    it(`doubles ${number}`, async () => {
      worker.postMessage(number);
      const [answer] = await once(worker, "message");
      assert.equal(answer, number * 2);
    });
  }
});
