// Each object that the engine or node can make shows all that it keeps, or can't be shown: also with another prototype.

import assert from "node:assert/strict";
import { test } from "node:test";
import { Worker } from "node:worker_threads";
import graphFlags from "../../lib/program/node/graph-flags.cjs";

/** @typedef {{ name: string, change: string, texts: (string | undefined)[] }} Shown objects that differ, as texts */

/** @type {Promise<{ results: Shown[], rows: string[], language: string[], constructors: string[] }>} */
const found = new Promise((done, fail) => {
  const execArgv = [...graphFlags.GRAPH_FLAGS, "--no-warnings"];
  const worker = new Worker(new URL("../every/intrinsics-worker.mjs", import.meta.url), { execArgv });
  worker.on("message", done);
  worker.on("error", fail);
});

test("each constructor of the language has a row", async () => {
  const { constructors, language, rows } = await found;
  const own = constructors.filter((name) => language.includes(name.split(".")[0]));
  assert.ok(own.length > 50);
  assert.deepEqual(own.filter((name) => !rows.includes(name)), []);
});

test("objects that differ have different texts, or none", async () => {
  const { results } = await found;
  assert.ok(results.length > 300);
  const alike = results.filter(({ texts }) => {
    const shown = texts.filter((text) => text !== undefined);
    return new Set(shown).size !== shown.length;
  });
  assert.deepEqual(alike, []);
});

test("no object with another prototype is taken for another kind", async () => {
  const { results } = await found;
  /** @type {Map<string, string>} */
  const known = new Map();
  for (const { name, texts } of results) {
    for (const [at, text] of texts.entries()) {
      // Errors are of one kind, once they have another prototype; and a Buffer is a Uint8Array then.
      if (text === undefined || name.endsWith("Error") || name === "Buffer") continue;
      const here = `${name}, ${at}`;
      assert.equal(known.get(text) ?? here, here);
      known.set(text, here);
    }
  }
});
