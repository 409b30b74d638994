// Right: tests of node:test, with workers that count in one word, and hooks that end them.
import assert from "node:assert/strict";
import { once } from "node:events";
import { afterEach, describe, it } from "node:test";
import { Worker } from "node:worker_threads";

describe("counting", () => {
  const started = [];
  const start = (words) => started.push(new Worker(new URL("./adds.mjs", import.meta.url), { workerData: words }));
  afterEach(() => Promise.all(started.splice(0).map((each) => each.terminate())));

  it("sees each addition", async () => {
    const words = new Int32Array(new SharedArrayBuffer(8));
    for (const _ of "12") start(words);
    await Promise.all(started.map((each) => once(each, "exit")));
    assert.equal(Atomics.load(words, 0), 2);
  });

  it("waits for the first one", () => {
    const words = new Int32Array(new SharedArrayBuffer(8));
    start(words);
    Atomics.wait(words, 0, 0, 10);
    while (Atomics.load(words, 0) === 0) Atomics.wait(words, 0, 0, 10);
    assert.equal(Atomics.load(words, 0), 1);
  });
});
