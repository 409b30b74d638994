// tools/release (CONTRIBUTING.md), in a clone of its own: it names whatever speaks against a release, and makes
// nothing.

import assert from "node:assert/strict";
import { spawnSync } from "node:child_process";
import { appendFileSync, mkdirSync, mkdtempSync, readFileSync, readdirSync, rmSync, writeFileSync } from "node:fs";
import { tmpdir } from "node:os";
import { delimiter, join } from "node:path";
import { test } from "node:test";
import { fileURLToPath } from "node:url";
import { needing } from "../../recorder/tests/helpers/needs.mjs";

const ROOT = fileURLToPath(new URL("../..", import.meta.url));
const git = (...words) => spawnSync("git", words, { cwd: ROOT, encoding: "utf8" });
const withClone = needing("rt or no git", spawnSync("rt", ["version"]).status === 0 && git("rev-parse").status === 0);
const { version: VERSION } = JSON.parse(readFileSync(join(ROOT, "package.json"), "utf8"));

/**
 * A clone of the last commit, its sabsim a script, with a cache in which the commit has passed.
 * @param {import("node:test").TestContext} context
 */
function cloneOf(context) {
  const room = mkdtempSync(join(tmpdir(), "release-"));
  context.after(() => rmSync(room, { recursive: true }));
  const [clone, cache, folder] = ["clone", "cache", "folder"].map((name) => join(room, name));
  assert.equal(git("clone", "--quiet", "--shared", ROOT, clone).status, 0);
  mkdirSync(join(cache, "sabsim"), { recursive: true });
  mkdirSync(folder);
  const out = join(clone, "crates/sabsim/out");
  mkdirSync(out, { recursive: true });
  writeFileSync(join(out, "sabsim"), `#!/bin/sh\necho 'sabsim ${VERSION}, a stand-in'\n`, { mode: 0o755 });
  // A script can't be stripped.
  writeFileSync(join(room, "strip"), "#!/bin/sh\n", { mode: 0o755 });
  const commit = (message) => {
    const who = ["-c", "user.name=a", "-c", "user.email=a@b"];
    git("-C", clone, ...who, "commit", "--quiet", "--all", "--message", message);
    appendFileSync(join(cache, "sabsim/passed"), git("-C", clone, "rev-parse", "HEAD").stdout);
  };
  const change = (name, from, to) => {
    const file = join(clone, name);
    const text = readFileSync(file, "utf8");
    assert.match(text, from, name);
    writeFileSync(file, text.replace(from, to));
  };
  const release = () => {
    const env = { ...process.env, XDG_CACHE_HOME: cache, PATH: `${room}${delimiter}${process.env.PATH}` };
    const { status, stdout, stderr } = spawnSync(join(clone, "tools/release"), [folder], { encoding: "utf8", env });
    return { status, stdout, wrong: stderr.trimEnd().split("\n"), made: readdirSync(folder) };
  };
  return { commit, change, release };
}

test("a release of a commit that has passed, with one version everywhere, makes the package", withClone, (context) => {
  const { commit, change, release } = cloneOf(context);
  change("CHANGELOG.md", /^## .*/m, `## ${VERSION} (2026-01-31)`);
  commit("dated");
  const { status, stdout, made } = release();
  assert.deepEqual([status, made], [0, [`sabsim-${VERSION}.tgz`]]);
  assert.match(stdout, new RegExp(`/sabsim-${VERSION}\\.tgz\n$`));
});

test("whatever speaks against a release is named, and nothing is made", withClone, (context) => {
  const { commit, change, release } = cloneOf(context);
  change("package.json", /"version": "[0-9.]*"/, '"version": "9.8.7"');
  change("crates/sab_block/src/lib.rt", /^\/\/!/, "//! Changed.\n//!");
  change("recorder/page/page.css", /^/, "/* changed */\n");
  const { status, wrong, made } = release();
  assert.deepEqual([status, made], [1, []]);
  const README = `README.md names the package of version ${VERSION}, and not of 9.8.7`;
  const [heading] = readFileSync(join(ROOT, "CHANGELOG.md"), "utf8").match(/^## .*/m);
  assert.deepEqual(wrong.map((line) => line.replace("release: ", "")), [
    "some files aren't as a commit has them (git status)",
    "recorder/wasm/sabsim.wasm isn't of these sources: tools/wasm makes it anew",
    "docs/try.html isn't of these sources: node tools/try-page.mjs makes it anew",
    `CHANGELOG.md begins with "${heading}", and not with "## 9.8.7 (YEAR-MONTH-DAY)"`,
    README, `recorder/${README}`,
    `the built program says "sabsim ${VERSION}, a stand-in", and package.json has 9.8.7`,
  ]);
  commit("changed");
  assert.equal(release().wrong.length, wrong.length - 1);
  change("package.json", /"version": "[0-9.]*"/, '"version": "9.8.6"');
  assert.match(release().wrong[0], /some files/);
});

test("a commit that hasn't passed is named", withClone, (context) => {
  const { release } = cloneOf(context);
  assert.match(release().wrong[0], /^release: \.\/check hasn't passed on commit [0-9a-f]{40} on this machine$/);
});
