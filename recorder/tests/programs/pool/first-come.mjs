// Wrong: it takes the answers in the order in which they come for answers in the order of the questions.
import { Worker } from "node:worker_threads";

const workers = [1, 2].map(() => new Worker(new URL("./worker.mjs", import.meta.url)));
const answers = [];
await new Promise((done) => {
  workers.forEach((worker, at) => {
    worker.on("message", (answer) => {
      answers.push(answer);
      if (answers.length === 2) done();
    });
    worker.postMessage(at + 1);
  });
});
for (const worker of workers) worker.unref();
if (answers.join() !== "1,4") throw new Error(`answers ${answers}`);
