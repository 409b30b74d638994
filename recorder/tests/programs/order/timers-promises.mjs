// Timers of node:timers/promises have values, can be aborted, and an interval is an iterator.
import { promisify } from "node:util";
import { setImmediate as soon, setInterval as every, setTimeout as sleep, scheduler } from "node:timers/promises";

console.log(await sleep(2, "slept"), await soon("soon"), await promisify(setTimeout)(1, "promisified"));
let count = 0;
for await (const value of every(2, "tock")) {
  count += 1;
  console.log(value, count);
  if (count === 3) break;
}
const controller = new AbortController();
const aborted = sleep(10_000, "never", { signal: controller.signal });
controller.abort(new Error("enough"));
await aborted.catch(({ name, code, cause }) => console.log(name, code, cause.message));
await soon("never", { signal: AbortSignal.abort() }).catch(({ name }) => console.log(name));
console.log(await scheduler.wait(1), await scheduler.yield());
void sleep(10_000, undefined, { ref: false }).then(() => console.log("never"));
