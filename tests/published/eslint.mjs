// ESLint on four files, by two threads. Each takes the next file by a shared counter, and main gathers what they found.

import { createRequire } from "node:module";
import { basename } from "node:path";
import { fileURLToPath } from "node:url";
import { FETCHED } from "./folder.mjs";

const NAMES = ["a", "b", "c", "d"];

const cwd = fileURLToPath(new URL("linted/", import.meta.url));
const { ESLint } = createRequire(new URL("chromium/third_party/node/node_modules/main.js", FETCHED))("eslint");
const rules = { "no-undef": "error", eqeqeq: "error" };
const eslint = new ESLint({ cwd, concurrency: 2, overrideConfigFile: true, overrideConfig: { rules } });
const results = await eslint.lintFiles(["*.js"]);
const found = results.map(({ filePath, messages }) => `${basename(filePath)}: ${messages.map(({ ruleId }) => ruleId)}`);
const expected = NAMES.map((name) => `${name}.js: eqeqeq,no-undef`);
if (found.join() !== expected.join()) throw new Error(`ESLint found ${found.join("; ")}`);
