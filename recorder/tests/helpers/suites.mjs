// Files of tests that node's own runner runs, as people have them.

import { spawn } from "node:child_process";
import { mkdirSync } from "node:fs";
import { join } from "node:path";
import { endOf } from "./programs.mjs";

/**
 * Runs a file of tests.
 * @param {string} folder it is in
 * @param {string} file
 * @param {{ env?: Record<string, string>, reporter?: string }} how
 */
export async function suiteIn(folder, file, { env = {}, reporter = "spec" } = {}) {
  const temporary = join(folder, "temporary");
  mkdirSync(temporary);
  const inherited = Object.entries({ ...process.env, ...env, TMPDIR: temporary });
  const own = Object.fromEntries(inherited.filter(([name]) => name !== "NODE_TEST_CONTEXT" && name !== "FORCE_COLOR"));
  const words = ["--test", `--test-reporter=${reporter}`, file];
  const child = spawn(process.execPath, words, { cwd: folder, env: own, stdio: ["ignore", "pipe", "inherit"] });
  const { status, stdout: output } = await endOf(child);
  return { folder, temporary, output, status };
}
