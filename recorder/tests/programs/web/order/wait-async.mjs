// Atomics.waitAsync in a page, whose word a worker changes.
const lines = globalThis.lines = [];
const words = new Int32Array(new SharedArrayBuffer(8));
const worker = new Worker("../parts/wakes.mjs", { type: "module" });
const { async, value } = Atomics.waitAsync(words, 0, 0);
value.then((how) => lines.push(`${how} ${words[0]}`));
lines.push(`${async} ${Atomics.waitAsync(words, 1, 1).value}`);
worker.postMessage(words);
lines.push(await new Promise((done) => { worker.onmessage = ({ data }) => done(data); }));
lines.push(await Atomics.waitAsync(words, 1, 0, 10).value);
lines.push("end");
console.log(lines.join("\n"));
