// The names of threads, where node has them. A worker ends as `await using` ends it.
import threads from "node:worker_threads";

const { Worker, isMainThread, parentPort } = threads;

async function nameOf(options) {
  const worker = new Worker(new URL(import.meta.url), options);
  const name = await new Promise((done) => worker.once("message", done));
  console.log("inside", name, "outside", worker.threadName);
  await (worker[Symbol.asyncDispose] ?? worker.terminate).call(worker);
  console.log("ended", worker.threadName, worker.threadId);
}

if (isMainThread) {
  console.log("main", threads.threadName, "threadName" in threads);
  await nameOf({ name: " a name " });
  await nameOf({});
} else {
  parentPort.on("message", () => {});
  parentPort.postMessage(threads.threadName);
}
