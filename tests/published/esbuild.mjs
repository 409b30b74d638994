// esbuild's synchronous calls: main hands each to a thread and sleeps, and that thread asks a process of its own. The
// process is esbuild's real one. With `ESBUILD_MAIN` in the environment another `main.js` is tried, such as a wrong
// one.

import { createRequire } from "node:module";
import { fileURLToPath } from "node:url";
import { FETCHED } from "./folder.mjs";

const fetched = (path) => fileURLToPath(new URL(`esbuild/usr/${path}`, FETCHED));
process.env.ESBUILD_BINARY_PATH = fetched("bin/esbuild");
const main = process.env.ESBUILD_MAIN ?? fetched("lib/x86_64-linux-gnu/nodejs/esbuild/lib/main.js");
const esbuild = createRequire(import.meta.url)(main);

const TEXTS = [["let x: number = 1", "let x = 1;\n"], ["let y: string", "let y;\n"],
  ["(<T>(t: T) => t)", "(t) => t;\n"]];
for (const [text, code] of TEXTS) {
  const made = esbuild.transformSync(text, { loader: "ts" }).code;
  if (made !== code) throw new Error(`esbuild made ${made} of ${text}`);
}
