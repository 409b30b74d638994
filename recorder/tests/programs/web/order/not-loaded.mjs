// A worker whose script isn't there or can't be read.
const lines = globalThis.lines = [];
self.onerror = (message) => { lines.push(`onerror ${message}`); };
const modules = ["missing.js", "broken.js", "imports-missing.mjs"].map((file) => [file, "module"]);
for (const [file, type] of [["missing.js", "classic"], ...modules]) {
  const worker = new Worker(`../parts/${file}`, { type });
  const event = await new Promise((done) => { worker.onerror = done; });
  lines.push(`${file} ${type} ${event.type} ${event instanceof ErrorEvent}`);
  worker.postMessage("nobody");
}
try { await import("../parts/missing.mjs"); } catch (error) { lines.push(`${error instanceof Error}`); }
await new Promise((done) => { setTimeout(done, 200); });
lines.push("end");
console.log(lines.join("\n"));
