// Right: each request has its own context, through awaits, timers and an answer of the worker.
import { AsyncLocalStorage } from "node:async_hooks";
import { setTimeout as sleep } from "node:timers/promises";
import { run } from "./requests.mjs";

const context = new AsyncLocalStorage();
await run((id, asked) => context.run({ id }, async () => {
  await sleep(5);
  const answer = await asked(context.getStore().id);
  await new Promise((done) => { setImmediate(done); });
  return `${context.getStore().id} ${answer}`;
}));
