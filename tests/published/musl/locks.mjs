// musl's locks, as Emscripten has them for WebAssembly, between threads of this program. The first word of the command
// line says which lock, the second one which module: `right`, or one with an edit of `edits.mjs`.

import { readFileSync } from "node:fs";
import { Worker } from "node:worker_threads";
import { FETCHED } from "../folder.mjs";
import { thread } from "./thread.mjs";

const [, , lock, which = "right"] = process.argv;
const PAGES = 2;

const memory = new WebAssembly.Memory({ initial: PAGES, maximum: PAGES, shared: true });
const module = new WebAssembly.Module(readFileSync(new URL(`musl/made/${which}.wasm`, FETCHED)));
const { init, [`${lock}_thread`]: act, [`${lock}_check`]: check } = thread(memory, module, 0);
init();
const ended = [1, 2].map((at) => new Promise((done) => {
  const worker = new Worker(new URL("locks-worker.mjs", import.meta.url), { workerData: { memory, module, at, lock } });
  worker.on("exit", done);
}));
act(0);
await Promise.all(ended);
if (check() === 0) throw new Error(`what the ${lock} protects is wrong`);
