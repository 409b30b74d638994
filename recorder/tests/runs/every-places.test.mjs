// Whatever can be a function shows what it captures, wherever it stands: agents that tell moments apart by that only
// leave the same, whether moments are merged or not.

import assert from "node:assert/strict";
import { test } from "node:test";
import { pathToFileURL } from "node:url";
import { compared } from "../../bench/merging.mjs";
import { PLACES } from "../every/places.mjs";
import { fileIn, temporaryFolder } from "../helpers/common.mjs";

const FOLDER = temporaryFolder();
const URLS = PLACES.map(({ text }, at) => pathToFileURL(fileIn(FOLDER, `place-${at}.mjs`, text)).href);
const RESULTS = compared({ urls: URLS, limit: 100_000 });

/** @param {{ finals: string[], failed: string[], deadlocks: boolean }} result */
const left = ({ finals, failed, deadlocks }) => ({ finals, failed, deadlocks });

for (const [at, { name, isShown }] of PLACES.entries()) {
  test(`what is captured counts: ${name}`, async () => {
    const { problem, merged, unmerged } = (await RESULTS)[at];
    assert.equal(problem, undefined);
    assert.ok(merged.isClosed && unmerged.isClosed);
    assert.ok(unmerged.finals.length > 1, "the first load must make a difference");
    assert.deepEqual(left(merged), left(unmerged));
    if (isShown) assert.deepEqual(merged.hidden, []);
  });
}
