// Messages that come before a worker listens: they wait until its script has run, but not longer.
const lines = globalThis.lines = [];
for (const name of ["listens-late", "listens-at-once"]) {
  const worker = new Worker(`../parts/${name}.mjs`, { type: "module" });
  const next = () => new Promise((done) => { worker.onmessage = ({ data }) => done(`${name} ${data}`); });
  let answered = next();
  worker.postMessage(1);
  lines.push(await answered);
  answered = next();
  worker.postMessage(2);
  lines.push(await answered);
}
lines.push("end");
console.log(lines.join("\n"));
