// What the process of a job begins with: workers, and meanwhile the module whose URL is its first word. The second word
// is the URL of the referee's module; the third one that of the workers of agents or of a program. The fourth says how
// many of these begin. The others are words of node's command line for them, and only those of a program have some.
// This is a CommonJS module, since such a one is loaded sooner.
"use strict";

const { pathToFileURL } = require("node:url");
const { evaluated, ownModules } = require("./own-modules.cjs");

const own = pathToFileURL(__filename);
/** @type {Record<string, any>} what is evaluated once, so that the last module has these workers, and this garbage */
const modules = {};

evaluated(ownModules(new URL("./garbage.mjs", own)), modules).collectGarbage();
const { beginThreads, giveAhead } = evaluated(ownModules(new URL("./thread.mjs", own)), modules);
const [job, referee, worker, count, ...flags] = process.argv.slice(2);
const root = new URL(worker);
// Threads of a program have words of their own.
beginThreads(root, Number(count), flags.length > 0 ? [...process.execArgv, ...flags] : undefined);
beginThreads(new URL(referee), 1);
// The referee has time: the code that is run is loaded first.
giveAhead(root);
evaluated(ownModules(new URL(job)), modules);
