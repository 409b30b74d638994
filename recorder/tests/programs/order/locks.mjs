// Locks between threads, which later versions of node have: what a thread gets, and when.
import { once } from "node:events";
import { Worker, isMainThread, parentPort } from "node:worker_threads";

const locks = globalThis.navigator?.locks;
console.log(isMainThread ? "main" : "worker");

const tried = async (act) => {
  try {
    console.log(await act());
  } catch (error) {
    console.log("fails:", error?.name ?? error);
  }
};

async function alone() {
  const order = [];
  const first = locks.request("a", ({ name, mode }) => { order.push(name, mode); });
  order.push("has asked");
  await first;
  console.log(order.join());
  const both = [1, 2].map((each) =>
    locks.request("b", async () => { order.push(each); await null; order.push(-each); }));
  await Promise.all(both);
  console.log(order.join());
  await tried(() => locks.request("-a", () => {}));
  await tried(() => locks.request("a", { steal: true, mode: "shared" }, () => {}));
  await tried(() => locks.request("a", { signal: AbortSignal.abort("why") }, () => {}));
  await tried(() => locks.request("a", { mode: "other" }, () => {}));
  await tried(() => locks.request("a"));
  await tried(() => locks.request("c", async () => { throw new RangeError("no"); }));
  await tried(() => locks.request("c", { ifAvailable: true }, (lock) => lock === null));
  await tried(() => locks.request("d", () => { throw new RangeError("at once"); }));
  await tried(() => locks.request("d", { ifAvailable: true }, (lock) => lock === null));
  const loses = locks.request("e", () => new Promise(() => {}));
  await tried(() => locks.request("e", { steal: true }, ({ name }) => `stole ${name}`));
  await tried(() => loses);
  await tried(() => locks.request("c", (lock) => Object.prototype.toString.call(lock)));
}

async function withAnother() {
  const worker = new Worker(new URL(import.meta.url));
  await once(worker, "message");
  await tried(() => locks.request("held", { ifAvailable: true }, (lock) => lock === null));
  const { held, pending } = await locks.query();
  console.log(held.map(({ name }) => name).sort().join(), pending.length);
  const signalled = new AbortController();
  const waits = locks.request("held", { signal: signalled.signal }, () => "never");
  signalled.abort("a reason");
  await tried(() => waits);
  const own = locks.request("held", () => "is free now");
  worker.postMessage("release");
  await tried(() => own);
  await worker.terminate();
  await tried(() => locks.request("left", { ifAvailable: true }, (lock) => lock === null));
}

if (locks !== undefined && isMainThread) {
  await alone();
  await withAnother();
} else if (locks !== undefined) {
  parentPort.on("message", () => {});
  locks.request("held", () => once(parentPort, "message"));
  locks.request("left", () => new Promise(() => {}));
  parentPort.postMessage("has two");
}
