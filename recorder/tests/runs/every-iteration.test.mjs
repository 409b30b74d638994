// How far loops and calls are is a part of an agent's state: such moments are merged, and rightly. Those at which the
// engine has more to do aren't.

import assert from "node:assert/strict";
import { test } from "node:test";
import { pathToFileURL } from "node:url";
import { compared } from "../../bench/merging.mjs";
import { CALLED_BY_ENGINE, MERGED, moduleOf } from "../every/nasty.mjs";
import { fileIn, temporaryFolder } from "../helpers/common.mjs";

const FOLDER = temporaryFolder();
const LIMIT = 30_000;

/** What the engine calls by itself in `CALLED_BY_ENGINE`: it loads, and so it has a moment. */
const CALLED = `const g = (v) => v; const f = () => { ld(1); return 1; };
const f2 = () => { ld(1); return { done: true }; };
const f3 = () => { ld(1); return [][Symbol.iterator](); }; const f4 = () => { ld(1); return {}; }; const a = ld(0);`;

/** @param {Record<string, string>} bodies @param {string} file @returns {Promise<any[]>} */
function learned(bodies, file) {
  const urls = Object.values(bodies).map((body, at) =>
    pathToFileURL(fileIn(FOLDER, `${file}-${at}.mjs`, moduleOf(body))).href);
  return compared({ urls, limit: LIMIT });
}

const ENGINE = Object.fromEntries(Object.entries(CALLED_BY_ENGINE).map(([name, body]) =>
  [name, `${CALLED} { ${body} } out(a);`]));
const OF_MERGED = learned(MERGED, "merged");
const OF_ENGINE = learned(ENGINE, "engine");

/** @param {{ finals: string[], failed: string[], deadlocks: boolean }} result */
const left = ({ finals, failed, deadlocks }) => ({ finals, failed, deadlocks });

for (const [at, name] of Object.keys(MERGED).entries()) {
  test(`merged, and rightly: ${name}`, async () => {
    const { problem, merged, unmerged } = (await OF_MERGED)[at];
    assert.equal(problem, undefined);
    assert.deepEqual(merged.hidden, []);
    assert.ok(unmerged.finals.length + unmerged.failed.length > 1, "the first load must make a difference");
    assert.deepEqual(left(merged), left(unmerged));
  });
}

for (const [at, name] of Object.keys(ENGINE).entries()) {
  test(`the engine has more to do: ${name}`, async () => {
    const { problem, merged, unmerged } = (await OF_ENGINE)[at];
    assert.equal(problem, undefined);
    assert.notDeepEqual(merged.hidden, []);
    assert.deepEqual(left(merged), left(unmerged));
  });
}
