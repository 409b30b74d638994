// The folder for the failing run of a test that names no folder: the same one each time, so that folders don't pile up.

import { createHash } from "node:crypto";
import { lstatSync, mkdirSync, rmSync } from "node:fs";
import { tmpdir } from "node:os";
import { basename, join } from "node:path";
import { Refused } from "../options/refused.mjs";

/** Others may write to the system's folder for temporary files. */
const OWN_ALONE = 0o700;

/**
 * Makes this user's own folder for kept runs.
 * @returns {string}
 * @throws {Refused} if its name is taken by something else
 */
function ownFolder() {
  // Windows has no such numbers; a container may have one without a name.
  const uid = process.getuid?.() ?? -1;
  const folder = join(tmpdir(), `sabsim-${uid}`);
  mkdirSync(folder, { recursive: true, mode: OWN_ALONE });
  const found = lstatSync(folder);
  if (found.isDirectory() && (uid < 0 || found.uid === uid)) return folder;
  throw new Refused(`${folder} isn't a folder of this user: \`out\` can name another one`);
}

/**
 * Empties the folder of a test.
 * @param {string} module the URL of the agents' module
 * @param {string} test by which it differs from others: its name, and the file that has it
 * @returns {string} the folder's path
 */
export function keptFolder(module, test) {
  const digest = createHash("sha256").update(`${module}\n${test}`).digest("hex").slice(0, 12);
  const name = basename(module.replace(/[?#].*$/, "")).replaceAll(/[^\w.-]/g, "_");
  const folder = join(ownFolder(), `${name}-${digest}`);
  rmSync(folder, { recursive: true, force: true });
  return folder;
}
