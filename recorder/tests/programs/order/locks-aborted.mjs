// What an aborted request leaves behind: it keeps its place until its turn comes. Later versions of node have locks.
if (globalThis.navigator?.locks === undefined) {
  console.log("no locks");
  process.exit();
}
const keep = setInterval(() => {}, 1000);
const log = [];
let release;
const held = navigator.locks.request("a", { mode: "shared" }, () => new Promise((done) => { release = done; }));
const controller = new AbortController();
const never = () => { log.push("never"); };
const aborted = navigator.locks.request("a", { signal: controller.signal }, never).catch((error) => log.push(error));
controller.abort("why");
await aborted;
const count = async () => {
  const { held: all, pending } = await navigator.locks.query();
  return `${all.length} ${pending.length}`;
};
console.log(log.join(), await count());
const ifShared = { mode: "shared", ifAvailable: true };
console.log(await navigator.locks.request("a", ifShared, (lock) => lock?.mode ?? "not available"));
const later = navigator.locks.request("a", { mode: "shared" }, () => { log.push("shared"); });
await new Promise((done) => setTimeout(done, 50));
console.log(log.join(), await count());
release();
await held;
await later;
await new Promise((done) => setTimeout(done, 50));
console.log(log.join(), await count());
clearInterval(keep);
