#!/usr/bin/env node
// The recorder's command line: runs agents under many seeds, and keeps the first run that fails. `--help` shows more.
// The process of the first job begins before anything else is loaded.

import { createRequire } from "node:module";

const require = createRequire(import.meta.url);
const { startJob } = require("./lib/seeds/start-job.cjs");
const words = process.argv.slice(2);
/** @param {RegExp} pattern @returns {boolean} */
const hasWord = (pattern) => words.some((word) => pattern.test(word));
const [, agents] = /^--agents[=\n](\d+)$/m.exec(words.join("\n")) ?? [];
const known = {
  program: words.find((word) => /^--program(=|$)/.test(word)),
  agents: agents === undefined ? undefined : Number(agents),
  everywhere: hasWord(/^--everywhere$/),
};
const child = hasWord(/^(-[hV]$|--(help|version|replay))/) ? undefined : startJob(known);
const { evaluated, ownModules } = require("./lib/processes/own-modules.cjs");
const { main } = evaluated(ownModules(new URL("./lib/command/main.mjs", import.meta.url)));
const status = await main(words, child);
// All is written. The process doesn't wait for what the engine still compiles in other threads.
if (child === undefined) process.exitCode = status;
else process.exit(status);
