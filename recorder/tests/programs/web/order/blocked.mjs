// A page may not wait, and gets messages of a worker that sleeps at the top level of its script.
const lines = globalThis.lines = [];
const words = new Int32Array(new SharedArrayBuffer(8));
const others = [[words, 0, 1], [words, 0, 0, 0], [words, 9, 0], [new Int32Array(2), 0, 0], [words, 0, 0, 10]];
for (const given of [[words, 0, 0], ...others]) {
  try { lines.push(Atomics.wait(...given)); } catch (error) { lines.push(`${error.name}: ${error.message}`); }
}
const worker = new Worker("../parts/sleeps.js");
const next = () => new Promise((done) => { worker.onmessage = ({ data }) => done(data); });
worker.postMessage(words);
lines.push(await next());
worker.postMessage("go on");
// The worker may not sleep yet.
while (Atomics.notify(words, 0) === 0) await new Promise((done) => setTimeout(done, 1));
lines.push(await next());
lines.push(await next());
try { Atomics.wait(words, 0, 1, 0); } catch (error) { lines.push(`${error.name}: ${error.message}`); }
worker.terminate();
lines.push("end");
console.log(lines.join("\n"));
