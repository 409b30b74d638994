// Two moments of an agent are one only if all that the agent can still read is the same: agents that tell moments apart
// by something that is hard to see leave the same, whether moments are merged or not.

import assert from "node:assert/strict";
import { writeFileSync } from "node:fs";
import { join } from "node:path";
import { test } from "node:test";
import { pathToFileURL } from "node:url";
import { compared } from "../../bench/merging.mjs";
import { BODIES, LONG, MODULES, longModuleOf, moduleOf } from "../every/nasty.mjs";
import { fileIn, temporaryFolder } from "../helpers/common.mjs";

const FOLDER = temporaryFolder();

const NAMES = Object.keys(BODIES);

/** @param {string} name of a file without its ending @param {string} text @returns {string} its URL */
const written = (name, text) => pathToFileURL(fileIn(FOLDER, `${name}.mjs`, text)).href;

/** @param {string[]} urls @param {object} [more] @returns {Promise<any[]>} */
const learned = (urls, more = {}) => compared({ urls, limit: 100_000, ...more });

test("what agents are given can be shown", async () => {
  const text = `export const setup = { agents: 2, buffers: [8] };
export default function agent(given) {
  const words = new Int32Array(given.buffers[0]);
  for (let round = 0; round < given.agents; round += 1) while (Atomics.compareExchange(words, 0, 0, 1) !== 0);
  Atomics.store(words, 0, 0);
}`;
  const [{ problem, merged }] = await learned([written("given", text)], { isUnmergedToo: false });
  assert.equal(problem, undefined);
  assert.deepEqual(merged.hidden, []);
});

test("what can't be read any more doesn't keep moments apart", async () => {
  const text = moduleOf("let a = ld(0); ld(1); a = 5; ld(1); out(a);");
  const [{ merged, unmerged }] = await learned([written("dead", text)]);
  assert.deepEqual(left(merged), left(unmerged));
  assert.ok(merged.nodes < unmerged.nodes, `${merged.nodes} of ${unmerged.nodes}`);
});

for (const [name, [thrown, body, other]] of Object.entries(LONG)) {
  test(`never merged wrongly: ${name}`, async () => {
    const url = written(name.replaceAll(/\W/g, "-"), longModuleOf(body, other));
    const [{ problem, merged }] = await learned([url], { isUnmergedToo: false });
    assert.equal(problem, undefined);
    assert.ok(merged.isClosed);
    assert.deepEqual(merged.failed, [`Error: ${thrown}`]);
  });
}

const URLS = NAMES.map((name, at) => written(`nasty-${at}`, moduleOf(BODIES[name])));
const RESULTS = learned(URLS);

/** @param {{ finals: string[], failed: string[], deadlocks: boolean }} result */
const left = ({ finals, failed, deadlocks }) => ({ finals, failed, deadlocks });

for (const [at, name] of NAMES.entries()) {
  test(`never merged wrongly: ${name}`, async () => {
    const { problem, merged, unmerged } = (await RESULTS)[at];
    assert.equal(problem, undefined);
    assert.ok(merged.isClosed && unmerged.isClosed);
    assert.ok(unmerged.finals.length + unmerged.failed.length > 1, "the first load must make a difference");
    assert.deepEqual(left(merged), left(unmerged));
    assert.ok(merged.nodes <= unmerged.nodes);
  });
}

const KEEPING = Object.entries(MODULES).map(([name, files]) => {
  for (const [file, text] of files) writeFileSync(join(FOLDER, file), text);
  return { name, url: pathToFileURL(join(FOLDER, files[0][0])).href };
});
const KEPT = learned(KEEPING.map(({ url }) => url));

for (const [at, { name }] of KEEPING.entries()) {
  test(`never merged wrongly, in a module: ${name}`, async () => {
    const { problem, merged, unmerged } = (await KEPT)[at];
    assert.equal(problem, undefined);
    assert.ok(unmerged.finals.length > 1);
    assert.deepEqual(left(merged), left(unmerged));
  });
}

/** What notices that something is left out of an agent's state on purpose. */
const NOTICING = {
  temporaries: ["temporary in a sum", "temporary in a call", "temporary object", "temporary key of +="],
  closures: ["closure alone", "methods in a literal"],
  privates: ["private field", "private field of a module's class"],
};

for (const [hides, names] of Object.entries(NOTICING)) {
  test(`leaving out ${hides} is noticed`, async () => {
    const urls = names.map((name) => URLS[NAMES.indexOf(name)]);
    for (const [at, { problem, merged, unmerged }] of (await learned(urls, { flaw: { hides } })).entries()) {
      assert.equal(problem, undefined);
      assert.notDeepEqual(left(merged), left(unmerged), names[at]);
    }
  });
}
