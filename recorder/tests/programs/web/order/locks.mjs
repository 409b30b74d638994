// Locks between a page and workers: in the order of requests, shared, if available, stolen, aborted.
const lines = globalThis.lines = [];
const { locks } = navigator;
const started = () => {
  const worker = new Worker("../parts/locks.js");
  return { ask: (given) => worker.postMessage(given), end: () => worker.terminate(), says: () => new Promise((done) => {
    worker.addEventListener("message", ({ data }) => done(data), { once: true });
  }) };
};
const asks = (who, given) => {
  who.ask(given);
  return who.says();
};
const tried = async (act) => {
  try {
    lines.push(`${await act()}`);
  } catch (error) {
    lines.push(`fails: ${error?.name ?? error}`);
  }
};
const [one, other] = [started(), started()];

// Exclusive, and in the order of the requests.
lines.push(await asks(one, { name: "a" }));
const order = [];
const waits = [1, 2, 3].map((each) => locks.request("a", async () => { order.push(each); await null; }));
lines.push(await asks(other, { name: "a", how: { ifAvailable: true } }));
lines.push(await locks.request("a", { ifAvailable: true }, (lock) => `${lock}`));
const { held, pending } = await locks.query();
lines.push(`${held.map(({ name, mode }) => `${name} ${mode}`)}; ${pending.map(({ name, mode }) => `${name} ${mode}`)}`);
lines.push(`${order}`);
lines.push(await asks(one, {}));
await Promise.all(waits);
lines.push(`${order}`);

// Shared, and behind an exclusive one that waits.
const sharing = { name: "b", how: { mode: "shared" } };
lines.push(await asks(one, sharing), await asks(other, sharing));
const exclusive = locks.request("b", ({ mode }) => { order.push(mode); });
const shared = locks.request("b", { mode: "shared" }, ({ mode }) => { order.push(mode); });
lines.push(await asks(one, {}), `${order}`);
lines.push(await asks(other, {}));
await Promise.all([exclusive, shared]);
lines.push(`${order}`);

// Stolen.
lines.push(await asks(one, { name: "c" }));
const fails = one.says();
lines.push(await locks.request("c", { steal: true }, ({ name }) => `stole ${name}`), await fails);

// Aborted while it waits, and later.
lines.push(await asks(one, { name: "d" }));
const [early, late] = [new AbortController(), new AbortController()];
const aborted = locks.request("d", { signal: early.signal }, () => lines.push("never"));
early.abort("a reason");
await tried(() => aborted);
const got = locks.request("d", { signal: late.signal }, () => { late.abort(); return "has gone on"; });
const released = asks(one, {});
await tried(() => got);

// A worker that ends has its locks no longer.
lines.push(await released, await asks(one, { name: "e" }));
const free = locks.request("e", () => "free");
one.end();
lines.push(await free);

await tried(() => locks.request("-f", () => {}));
await tried(() => locks.request("f", { steal: true, ifAvailable: true }, () => {}));
await tried(() => locks.request("f", { steal: true, mode: "shared" }, () => {}));
await tried(() => locks.request("f", { steal: true, signal: early.signal }, () => {}));
await tried(() => locks.request("f", { signal: early.signal }, () => {}));
await tried(() => locks.request("f", { mode: "other" }, () => {}));
await tried(() => locks.request("f"));
await tried(() => locks.request("f", () => { throw new RangeError("no"); }));
await tried(() => locks.request("f", () => Promise.reject(new SyntaxError("no"))));
await tried(() => locks.request("f", (lock) => `${Object.prototype.toString.call(lock)} ${lock instanceof Lock}`));
lines.push("end");
console.log(lines.join("\n"));
