// The same worker for a later SQLite. It waits again if it was woken too soon, and its other half by waitAsync.

importScripts("sqlite-module.js");

const initializers = [];
const initializersAsync = [];
const sqlite3ApiBootstrap = { initializers, initializersAsync };
// Its check of itself uses this name, and no script has it: a mistake of SQLite's.
const randomFilename = (length) => "x".repeat(length);
importScripts("opfs-common-shared.js", "sqlite3-vfs-opfs.js");

const said = [];
const toss = (...words) => {
  throw new Error(words.join(" "));
};
let isInstalled = false;

/** What SQLite does when it begins, with a check of its file system. */
async function initialized() {
  const sqlite3 = Object.assign(sqlite3Of(), {
    config: { log() {}, warn() {}, error: (...words) => said.push(words.join(" ")) },
    util: { toss, nu: (members) => Object.assign(Object.create(null), members) },
    vfs: { installVfs: () => { isInstalled = true; } },
  });
  for (const initialize of initializers) initialize(sqlite3);
  for (const initialize of initializersAsync) await initialize(sqlite3);
  if (said.length > 0) throw new Error(said[0]);
  if (!isInstalled) throw new Error("the file system wasn't installed");
  postMessage("done");
}
initialized();
