// How files in TypeScript are loaded in tests: by node itself, if it leaves the types out, and else by a hook that does
// so for these files.

import { writeFileSync } from "node:fs";
import nodeModule from "node:module";
import { join } from "node:path";
import { pathToFileURL } from "node:url";
import { whereNodeHasIt } from "./where-node-has-it.mjs";

/** Whether this node loads TypeScript by itself. */
export const loadsTypeScript = Boolean(/** @type {any} */ (process.features).typescript);

/** For tests with files in TypeScript: this node loads them, or takes hooks. */
export const withTypeScript = whereNodeHasIt(
  loadsTypeScript || /** @type {any} */ (nodeModule).registerHooks !== undefined,
);

/**
 * What node's command line has, so that files in TypeScript are loaded.
 * @param {string} folder for the hook's file
 * @param {RegExp} types what is a type in these files, and becomes spaces
 * @returns {string[]}
 */
export function typeScriptWords(folder, types) {
  if (loadsTypeScript) return [];
  const hook = join(folder, "hook.mjs");
  writeFileSync(hook, `
    import { readFileSync } from "node:fs";
    import { registerHooks } from "node:module";
    registerHooks({
      load(url, context, next) {
        if (!/\\.m?ts$/.test(url)) return next(url, context);
        const source = readFileSync(new URL(url), "utf8").replace(${types}, (type) => " ".repeat(type.length));
        return { format: "module", source, shortCircuit: true };
      },
    });`);
  return ["--import", pathToFileURL(hook).href];
}
