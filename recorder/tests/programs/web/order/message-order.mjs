// Messages of a port come one by one, each behind the microtasks of the one before.
const lines = globalThis.lines = [];
const worker = new Worker("../parts/in-a-row.mjs", { type: "module" });
let last;
const ended = new Promise((done) => { last = done; });
worker.onmessage = async ({ data }) => {
  lines.push(`got ${data}`);
  await null;
  lines.push(`first await of ${data}`);
  queueMicrotask(() => lines.push(`microtask of ${data}`));
  await null;
  lines.push(`second await of ${data}`);
};
worker.addEventListener("message", ({ data }) => {
  lines.push(`and ${data}`);
  if (data === 3) last();
});
for (const number of [1, 2, 3]) worker.postMessage(number);
await ended;
lines.push("end");
console.log(lines.join("\n"));
