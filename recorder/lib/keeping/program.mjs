// The recorder's programs: how they are called, and their version.

import { existsSync, readFileSync } from "node:fs";

const TOP = new URL("../../../", import.meta.url);

/** @returns {boolean} whether this is the installed package, and not the repository */
export const isInstalled = () => /\/node_modules\//.test(TOP.href) || !existsSync(new URL("crates.txt", TOP));

/**
 * @param {"record" | "merge"} name of a program
 * @returns {string} the words that start it, for its usage
 */
export const usageWords = (name) => (isInstalled() ? `sabsim-${name}` : `node recorder/${name}.mjs`);

/** @param {"record" | "merge"} name of a program @returns {string} a line */
export function versionLine(name) {
  const { version } = JSON.parse(readFileSync(new URL("package.json", TOP), "utf8"));
  return `sabsim-${name} ${version}\n`;
}
