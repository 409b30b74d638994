// What a thread needs to have a graph of modules. The thread that starts it reads this, and needs none of it itself.
// This is a CommonJS module, since such a one is loaded sooner.
"use strict";

/** The `execArgv` of a thread that has a graph. */
const GRAPH_FLAGS = Object.freeze(["--experimental-vm-modules", "--expose-internals"]);

module.exports = { GRAPH_FLAGS };
