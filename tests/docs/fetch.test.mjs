// What `node tests/published/fetch.mjs` prints if apt-get has no sources (docs/FOUND.md). No network is needed: a
// command that fails as apt-get does is in its place.

import assert from "node:assert/strict";
import { spawnSync } from "node:child_process";
import { mkdirSync, mkdtempSync, readdirSync, rmSync, writeFileSync } from "node:fs";
import { tmpdir } from "node:os";
import { delimiter, dirname, join } from "node:path";
import { test } from "node:test";
import { fileURLToPath } from "node:url";

const FETCH = fileURLToPath(new URL("../published/fetch.mjs", import.meta.url));

/**
 * What is printed for SQLite's sources, or for other products.
 * @param {import("node:test").TestContext} context
 * @param {string} says what apt-get says
 * @param {string[]} [names] of products
 */
function fetched(context, says, names = ["sqlite", "sqlite-now"]) {
  const folder = mkdtempSync(join(tmpdir(), "fetch-"));
  context.after(() => rmSync(folder, { recursive: true }));
  writeFileSync(join(folder, "apt-get"), `#!/bin/sh\necho "E: ${says}" >&2\nexit 100\n`, { mode: 0o755 });
  const into = join(folder, "published");
  mkdirSync(into);
  const env = { ...process.env, SABSIM_PUBLISHED: into,
    PATH: `${folder}${delimiter}${dirname(process.execPath)}:/usr/bin:/bin` };
  const { status, stdout, stderr } = spawnSync(process.execPath, [FETCH, ...names], { env, encoding: "utf8" });
  const left = readdirSync(into).flatMap((name) => readdirSync(join(into, name)));
  return { status, stdout, stderr, left };
}

const LACKS = ["You must put some 'deb-src' URIs in your sources.list", "Unable to find a source package for sqlite3"];
for (const says of LACKS) {
  test(`without sources it names the lines to add: ${says}`, (context) => {
    const { status, stdout, stderr, left } = fetched(context, says);
    assert.equal(status, 1);
    assert.equal(stdout, "");
    for (const [folder, suite] of [["sqlite", "bookworm"], ["sqlite-now", "sid"]]) {
      assert.match(stderr, new RegExp(`^not fetched: ${folder}: apt-get has no sources of sqlite3/${suite}\\. `, "m"));
      assert.match(stderr, new RegExp(`^    deb-src http://deb\\.debian\\.org/debian ${suite} main$`, "m"));
    }
    assert.doesNotMatch(stderr, /^ +at |fetching\.mjs/m);
    assert.deepEqual(left, []);
  });
}

test("without lists of packages it says how apt-get gets them", (context) => {
  const { status, stderr, left } = fetched(context, "Unable to locate package esbuild", ["esbuild"]);
  assert.equal(status, 1);
  const why = "apt-get has no package esbuild in its lists. Run `apt-get update` as root";
  assert.equal(stderr, `not fetched: esbuild: ${why}\n`);
  assert.deepEqual(left, []);
});

test("what else apt-get says is printed as it is", (context) => {
  const { status, stderr } = fetched(context, "Unable to fetch some archives");
  assert.equal(status, 1);
  assert.match(stderr, /^not fetched: sqlite: apt-get source .*sqlite3\/bookworm: E: Unable to fetch some archives$/m);
  assert.doesNotMatch(stderr, /^ +at |fetching\.mjs/m);
});
