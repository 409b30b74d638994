// A classic worker: what its scripts declare is known to all of them.
const lines = globalThis.lines = [];
const worker = new Worker(new URL("../parts/classic.js", import.meta.url));
worker.onerror = (event) => { lines.push(`error ${event.message}`); };
await new Promise((done) => {
  worker.onmessage = ({ data }) => {
    if (data === "done") done();
    else lines.push(data);
  };
});
lines.push("end");
console.log(lines.join("\n"));
