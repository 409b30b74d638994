#!/usr/bin/env node
// Stands for a native program that searches: `sabsim search` by the search in JavaScript. The environment may change
// what it writes: ADDS is added to the number of states, ENDS is its status.

import { readFileSync } from "node:fs";
import { statusOf } from "../../lib/every/search/lines.mjs";
import { searched } from "../../lib/every/search/searched-file.mjs";
import { linesOf } from "./search-lines.mjs";

const [command, , timeouts, , limit] = process.argv.slice(2);
if (command !== "search") process.exit(2);
const { ADDS = "0", ENDS } = process.env;
const bounds = { timeouts: /** @type {any} */ (timeouts), limit: Number(limit) };
const result = searched(JSON.parse(readFileSync(0, "utf8")), bounds);
result.states += Number(ADDS);
process.stdout.write(linesOf(result));
process.exitCode = ENDS === undefined ? statusOf(result) : Number(ENDS);
