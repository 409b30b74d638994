// A worker's listener of exit or uncaughtException throws. The thread that has started the worker gets the error.
import { Worker } from "node:worker_threads";

const THROWS_AT_EXIT = 'process.on("exit", () => { throw new Error("at exit"); });';
const THROWS_AGAIN = 'process.on("uncaughtException", () => { throw new Error("again"); });';
const CODES = [
  THROWS_AT_EXIT,
  `${THROWS_AT_EXIT} process.exit(3)`,
  `${THROWS_AT_EXIT} process.exitCode = 4;`,
  `${THROWS_AT_EXIT} throw new Error("before");`,
  `${THROWS_AT_EXIT} process.on("uncaughtException", () => {});`,
  `${THROWS_AGAIN} throw new Error("first")`,
  `${THROWS_AGAIN} setTimeout(() => { throw new Error("first"); })`,
];
for (const code of CODES) {
  const worker = new Worker(code, { eval: true });
  worker.on("error", ({ message }) => console.log("error", message));
  await new Promise((done) => worker.on("exit", (status) => {
    console.log("exit", status);
    done();
  }));
}
