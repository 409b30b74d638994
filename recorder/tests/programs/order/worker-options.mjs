// Options of workers that change no meaning, and what the thread finds of them.
import { once } from "node:events";
import { Worker, isMainThread, parentPort, resourceLimits } from "node:worker_threads";

async function finds(options) {
  const worker = new Worker(new URL(import.meta.url), options);
  const before = worker.resourceLimits.maxOldGenerationSizeMb;
  const [[found]] = await Promise.all([once(worker, "message"), once(worker, "exit")]);
  console.log(JSON.stringify({ before, ...found, after: worker.resourceLimits }));
}

if (isMainThread) {
  console.log(JSON.stringify(resourceLimits), process.execArgv.length);
  const limits = { maxOldGenerationSizeMb: 128, maxYoungGenerationSizeMb: 16, stackSizeMb: 2 };
  await finds({ execArgv: ["--enable-source-maps", "--no-warnings"], resourceLimits: limits });
  await finds({ execArgv: [], resourceLimits: { maxOldGenerationSizeMb: 64, other: 1 } });
  const worker = new Worker("", { eval: true });
  const { eventLoopUtilization } = worker.performance;
  console.log(JSON.stringify(eventLoopUtilization()), Object.keys(worker.resourceLimits).join());
} else parentPort.postMessage({ words: process.execArgv, old: resourceLimits.maxOldGenerationSizeMb });
