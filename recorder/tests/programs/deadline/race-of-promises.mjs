// Right: a question that isn't answered in time is asked again with a new number, and a late answer is dropped.
import { setTimeout as sleep } from "node:timers/promises";
import { Worker } from "node:worker_threads";

const code = `const { parentPort } = require("node:worker_threads");
parentPort.on("message", ({ id, text }) => setTimeout(() => parentPort.postMessage({ id, text: text + "!" }), 5));`;
const worker = new Worker(code, { eval: true });
const asked = new Map();
worker.on("message", ({ id, text }) => asked.get(id)?.(text));
let id = 0;
async function ask(text) {
  for (;;) {
    id += 1;
    const own = id;
    const answered = new Promise((done) => asked.set(own, done));
    worker.postMessage({ id: own, text });
    const answer = await Promise.race([answered, sleep(20)]);
    asked.delete(own);
    if (answer !== undefined) return answer;
  }
}
for (const text of ["a", "b"]) {
  const answer = await ask(text);
  if (answer !== `${text}!`) throw new Error(`${text} is answered by ${answer}`);
}
await worker.terminate();
