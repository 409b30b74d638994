// The package as tests use it: made, and installed in a project of a user's own, in a folder that ends with the tests.

import assert from "node:assert/strict";
import { spawn, spawnSync } from "node:child_process";
import { once } from "node:events";
import { copyFileSync, existsSync, mkdirSync, mkdtempSync, readFileSync, readdirSync, rmSync, statSync,
  writeFileSync } from "node:fs";
import { tmpdir } from "node:os";
import { join } from "node:path";
import { after } from "node:test";
import { fileURLToPath } from "node:url";
import { needing } from "../../recorder/tests/helpers/needs.mjs";

export const pathOf = (place) => fileURLToPath(new URL(place, import.meta.url));
export const TOP = pathOf("../../");
export const PROJECT = pathOf("project/");
/** Where tools/fetch puts what it fetches. */
export const TOOLS = spawnSync(join(TOP, "tools/fetch"), ["--folder"], { encoding: "utf8" }).stdout?.trimEnd() ?? "";
export const { version, files } = JSON.parse(readFileSync(join(TOP, "package.json"), "utf8"));

export const room = mkdtempSync(join(tmpdir(), "sabsim-package-"));
after(() => rmSync(room, { recursive: true, force: true }));

/** What a user's shell has: nothing of this test's own run, and npm without a network. */
export const environment = Object.fromEntries(
  Object.entries(process.env).filter(([name]) => !/^(NODE_|npm_|SABSIM$)/i.test(name)),
);
Object.assign(environment, {
  npm_config_cache: join(room, "npm"), npm_config_offline: "true", npm_config_update_notifier: "false",
});

/** Runs a command in a folder until it ends. */
export function run(folder, command, words, input = "") {
  const options = { cwd: folder, input, encoding: "utf8", env: environment, maxBuffer: 2 ** 26, timeout: 600_000 };
  const { status, signal, stdout, stderr, error } = spawnSync(command, words, options);
  assert.equal(error, undefined);
  return { status, signal, output: stdout, errors: stderr };
}

/** Runs a command in a folder until it ends, beside others, with more in its environment. */
export async function runOf(folder, command, words, more) {
  const env = { ...environment, ...more };
  const child = spawn(command, words, { cwd: folder, env, stdio: ["ignore", "pipe", "pipe"] });
  const [output, errors] = [child.stdout, child.stderr].map((stream) => stream.setEncoding("utf8").toArray());
  const [status] = await once(child, "close");
  return { status, output: (await output).join(""), errors: (await errors).join("") };
}

/** What a command that succeeds writes. */
export function succeeds(folder, command, words, input) {
  const { status, output, errors } = run(folder, command, words, input);
  assert.equal(status, 0, `${command} ${words.join(" ")}\n${output}\n${errors}`);
  return output;
}

/** Makes the package; returns its path. */
export function packed(name, words) {
  const folder = join(room, name);
  mkdirSync(folder);
  const path = succeeds(TOP, join(TOP, "tools/package"), [folder, ...words]).trimEnd();
  assert.equal(path, join(folder, `sabsim-${version}.tgz`));
  return path;
}

/** The files in a package, in the order of their names. */
export function filesOf(path) {
  const names = succeeds(room, "tar", ["-tzf", path]).trimEnd().split("\n");
  return names.map((name) => name.replace(/^package\//, "")).sort();
}

/** The files of the repository at a path: itself, or all below it. @param {string} path @returns {string[]} */
function filesAt(path) {
  if (!statSync(join(TOP, path)).isDirectory()) return [path];
  return readdirSync(join(TOP, path)).flatMap((name) => filesAt(`${path}/${name}`));
}

/** The files of the repository that the package is to have, by `files` of package.json. It has no program. */
export function packagedFiles() {
  const named = files.filter((name) => name !== "program").flatMap((name) => {
    const [, folder, ending] = /^(.*)\/\*(\.\w+)$/.exec(name) ?? [];
    if (folder === undefined) return filesAt(name);
    return readdirSync(join(TOP, folder)).filter((each) => each.endsWith(ending)).map((each) => `${folder}/${each}`);
  });
  return ["LICENSE", "README.md", "package.json", ...named].sort();
}

/** Makes a project of a user's own with some files and the package installed; returns its folder. */
export function projectWith(name, path, files = readdirSync(PROJECT)) {
  const folder = join(room, name);
  mkdirSync(folder);
  for (const file of files) copyFileSync(join(PROJECT, file), join(folder, file));
  writeFileSync(join(folder, "package.json"), '{ "name": "own", "version": "1.0.0", "private": true }\n');
  copyFileSync(path, join(folder, `sabsim-${version}.tgz`));
  const words = ["install", "--offline", "--no-audit", "--no-fund", `./sabsim-${version}.tgz`];
  succeeds(folder, "npm", words);
  return folder;
}

/** The node that `tools/fetch node` has fetched, if it is there, can be used here, and isn't this one. */
function otherNode() {
  const command = [join(TOP, "tools/with"), "node", "--", "/usr/bin/node"];
  const { status, stdout } = spawnSync(command[0], [...command.slice(1), "--version"], { encoding: "utf8" });
  const isThere = existsSync(join(TOOLS, "node")) && status === 0 && stdout.trimEnd() !== process.version;
  const needs = needing("node by tools/fetch", isThere);
  return { name: isThere ? `node ${stdout.trimEnd()}` : "another node", command, needs };
}

/** The nodes with which the package is used: this one and another. `needs` leaves tests out if it is missing. */
export const NODES = [{ name: `node ${process.version}`, command: [process.execPath], needs: {} }, otherNode()];
