// process.exit refuses what is no exit code, and takes undefined as one. A worker can't abort.
import { once } from "node:events";
import { Worker } from "node:worker_threads";

const CODE = `const { parentPort } = require("node:worker_threads");
try {
  process.abort();
} catch ({ code }) {
  parentPort.postMessage(code);
}`;
const worker = new Worker(CODE, { eval: true });
const end = once(worker, "exit");
console.log(...await once(worker, "message"));
console.log(...await end);
for (const given of ["abc", 1.5, {}, NaN, true]) {
  try {
    process.exit(given);
  } catch ({ name, code }) {
    console.log(name, code);
  }
}
process.on("exit", (status) => console.log("exit", status));
process.exitCode = 2;
process.exit(undefined);
