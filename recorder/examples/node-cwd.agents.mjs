// A module of node itself: each worker keeps what process.cwd() returned, until a counter says that the main thread has
// changed the directory. The two pieces of code are those of the node that runs this, cut out of its built-in sources
// by their text. In place of the two system calls there are accesses to a word. The first argument `mended` changes the
// directory first, and counts then.

import { compileFunction } from "node:vm";

const COUNTER = 0;
const DIRECTORY = 1;
const CHANGED = 2;

/** Where the code is, and what it is. */
const CHDIR = { source: "internal/worker", text: /process\.chdir = function\(path\) \{\n[^}]*\n {2}\};\n/ };
const CWD = { source: "internal/main/worker_thread", text: /let cachedCwd = '';\n[^]*?return cachedCwd;\n +\};\n/ };
const COUNTS_FIRST = /^(.*dd\(cwdCounter, 0, 1\);\n)(.*originalChdir\(path\);\n)/m;

/** @type {{ binding(name: string): Record<string, string> }} */
const { binding } = /** @type {any} */ (process);

/**
 * A piece of node's own code, at its own lines.
 * @param {{ source: string, text: RegExp }} piece
 * @param {(text: string) => string} change
 * @returns {Function} of the names that are in it
 */
function builtIn({ source, text }, change = (same) => same) {
  const whole = binding.call(process, "natives")[source] ?? "";
  const found = text.exec(whole);
  if (found === null) throw new Error(`node ${process.versions.node} has no such code in ${source}: nothing to try`);
  const names = ["process", "cwdCounter", "originalChdir", "AtomicsAdd", "AtomicsLoad"];
  const lineOffset = whole.slice(0, found.index).split("\n").length - 1;
  return compileFunction(change(found[0]), names, { filename: `${source}.js`, lineOffset });
}

/** @param {string} text of the piece that changes the directory */
function mended(text) {
  if (!COUNTS_FIRST.test(text)) throw new Error(`node ${process.versions.node} doesn't count first: nothing to mend`);
  return text.replace(COUNTS_FIRST, "$2$1");
}

/** @type {import("sabsim").Setup} */
export const setup = { agents: 2, buffers: [12], names: { COUNTER, DIRECTORY, CHANGED } };

// If this node has no such code, the module can't be loaded, and this error says so.
builtIn(CHDIR);
builtIn(CWD);

/** @type {import("sabsim").Agent} */
export default function agent({ buffers: [buffer], agent, args: [how] }) {
  const words = new Int32Array(buffer);
  const own = { cwd: () => Atomics.load(words, DIRECTORY), chdir: (/** @type {number} */ _) => {} };
  const change = (/** @type {number} */ path) => Atomics.store(words, DIRECTORY, path);
  const given = [own, new Uint32Array(buffer, 4 * COUNTER, 1), change, Atomics.add, Atomics.load];
  if (agent === 0) {
    builtIn(CHDIR, how === "mended" ? mended : undefined)(...given);
    own.chdir(1);
    Atomics.store(words, CHANGED, 1);
    Atomics.notify(words, CHANGED, 1);
    return;
  }
  builtIn(CWD)(...given);
  own.cwd();
  while (Atomics.load(words, CHANGED) === 0) Atomics.wait(words, CHANGED, 0);
  if (own.cwd() !== 1) throw new Error("process.cwd() returns the old directory, after process.chdir() has returned");
}
