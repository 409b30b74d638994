// Mistakes that are planted in what was learned: the runs over each edge notice all that 300 seeds notice.

import assert from "node:assert/strict";
import { test } from "node:test";
import { noticedMistakes } from "../../bench/covering.mjs";

test("runs over each edge notice each mistake of learning that 300 seeds notice", async () => {
  const noticed = await noticedMistakes(30);
  assert.equal(noticed.length, 30);
  assert.deepEqual(noticed.filter(({ byCovering, bySeeds }) => bySeeds && !byCovering), []);
  assert.ok(noticed.filter(({ byCovering }) => byCovering).length >= 29);
});
