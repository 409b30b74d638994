// Builds musl's locks for WebAssembly, with threads that try them (locks.c): one module as it is, one for each edit.
// All except locks.c is Emscripten's, as published; the compiler and the linker are Debian's clang-14 and lld-14.

import { spawnSync } from "node:child_process";
import { mkdirSync, readFileSync, writeFileSync } from "node:fs";
import { basename, dirname, join } from "node:path";
import { fileURLToPath } from "node:url";
import { EDITS } from "./edits.mjs";

const LOCKS = fileURLToPath(new URL("locks.c", import.meta.url));
const MUSL = "system/lib/libc/musl";
const PTHREAD = "system/lib/pthread";

/** Musl's files that are linked. */
const SOURCES = [
  ..."lock timedlock trylock unlock".split(" ").map((name) => `src/thread/pthread_mutex_${name}.c`),
  ..."timedwait wait signal broadcast".split(" ").map((name) => `src/thread/pthread_cond_${name}.c`),
  ..."init wait".split(" ").map((name) => `src/thread/pthread_barrier_${name}.c`),
  ..."rdlock timedrdlock tryrdlock wrlock timedwrlock trywrlock unlock".split(" ")
    .map((name) => `src/thread/pthread_rwlock_${name}.c`),
  ..."init wait timedwait trywait post".split(" ").map((name) => `src/thread/sem_${name}.c`),
  ..."__wait __timedwait pthread_self pthread_setcancelstate pthread_testcancel pthread_cleanup_push vmlock".split(" ")
    .map((name) => `src/thread/${name}.c`),
  "src/errno/__errno_location.c",
];
const EMSCRIPTEN = ["emscripten_futex_wait.c", "emscripten_futex_wake.c", "emscripten_thread_state.S"];

const INCLUDED = [
  ...["arch/emscripten", "arch/generic", "src/include", "src/internal", "include"].map((name) => `${MUSL}/${name}`),
  "system/include", PTHREAD,
];
const TARGET = ["--target=wasm32-unknown-emscripten", "-pthread"];
const C = ["-O2", "-DNDEBUG", "-D_XOPEN_SOURCE=700", "-nostdlibinc", "-w", ...INCLUDED.map((name) => `-I${name}`)];

const LOCK_NAMES = ["mutex", "condition", "barrier", "rwlock", "semaphore"];
const EXPORTED = [
  "begin", "init", "__stack_pointer", "__heap_base",
  ...LOCK_NAMES.flatMap((name) => [`${name}_thread`, `${name}_check`]),
];
const MEMORY = ["--shared-memory", "--import-memory", "--initial-memory=131072", "--max-memory=131072"];
const LINK = ["--no-entry", "--allow-undefined", ...MEMORY, ...EXPORTED.map((name) => `--export=${name}`)];

/** @param {string} command @param {string[]} words @param {string} cwd */
function run(command, words, cwd) {
  const { status, stderr, error } = spawnSync(command, words, { cwd, encoding: "utf8" });
  if (status !== 0) throw new Error(`${command} is needed for musl's locks: ${error?.message ?? stderr.trim()}`);
}

/**
 * Compiles a file.
 * @param {string} file
 * @param {string} object what is made of it
 * @param {string} into the folder of all
 */
function compile(file, object, into) {
  run("clang-14", [...TARGET, ...(file.endsWith(".c") ? C : []), "-c", file, "-o", object], into);
}

/**
 * Builds the modules in the folder `made`.
 * @param {string} into the folder of the published files
 */
export function buildLocks(into) {
  const made = join(into, "made");
  mkdirSync(made, { recursive: true });
  const objectOf = (/** @type {string} */ file) => join(made, `${basename(file).replace(/\.\w$/, "")}.o`);
  const files = [...SOURCES.map((name) => `${MUSL}/${name}`), ...EMSCRIPTEN.map((name) => `${PTHREAD}/${name}`), LOCKS];
  for (const file of files) compile(file, objectOf(file), into);
  run("wasm-ld-14", [...LINK, ...files.map(objectOf), "-o", "made/right.wasm"], into);
  for (const { name, file, from, to } of EDITS) {
    const path = `${MUSL}/${file}`;
    const parts = readFileSync(join(into, path), "utf8").split(from);
    if (parts.length !== 2) throw new Error(`${file} has not once: ${from}`);
    const edited = join(into, dirname(path), `${name}.c`);
    writeFileSync(edited, parts.join(to));
    compile(edited, objectOf(edited), into);
    const objects = files.map((each) => objectOf(each === path ? edited : each));
    run("wasm-ld-14", [...LINK, ...objects, "-o", `made/${name}.wasm`], into);
  }
}
