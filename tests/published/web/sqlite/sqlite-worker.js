// The worker of a page that uses SQLite. Its half of the file system asks the other one, in a worker of its own, for
// each thing that is to be done with a file, and sleeps.

importScripts("sqlite-module.js");

const errors = [];
var console = { log() {}, warn() {}, error: (...words) => errors.push(words.join(" ")) };
const initializers = [];
const initializersAsync = [];
const sqlite3ApiBootstrap = { initializers, initializersAsync };
importScripts("sqlite3-api-opfs.js");

/** What SQLite does when it begins, with a check of its file system. */
async function initialized() {
  const sqlite3 = sqlite3Of();
  for (const initialize of initializers) initialize(sqlite3);
  for (const initialize of initializersAsync) await initialize(sqlite3);
  if (errors.length > 0) throw new Error(errors[0]);
  if (sqlite3.opfs === undefined) throw new Error("the file system wasn't installed");
  sqlite3.opfs.debug.asyncShutdown();
  postMessage("done");
}
initialized();
