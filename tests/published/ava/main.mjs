// AVA's own command, in the folder of this small project: the tests of each file run in a thread.

import "../node_modules/ava/entrypoints/cli.mjs";
