// A test of node's own, with node's own `test/common`.

import { createRequire } from "node:module";
import { fileURLToPath } from "node:url";
import { FETCHED } from "../folder.mjs";

const file = new URL(process.argv[2], FETCHED);
const path = fileURLToPath(file);
// `test/common` sets the mask for the files that tests make, and these make none.
process.umask = () => 0o022;
// It knows the globals of node 18, and a later one has more.
process.env.NODE_TEST_KNOWN_GLOBALS = "0";
// At their end tests leave the folder that they have made, in which none of them is.
const { chdir } = process;
const root = fileURLToPath(new URL("..", file)).replace(/.$/, "");
process.chdir = (folder) => void (folder === root || chdir(folder));
// Some tests ask for the collection of garbage, and find nothing of what it does.
globalThis.gc ??= () => {};
if (path.endsWith(".mjs")) await import(file);
else createRequire(path)(path);
