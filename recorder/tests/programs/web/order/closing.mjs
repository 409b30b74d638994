// What still comes of a worker that closes itself, or is terminated.
const lines = globalThis.lines = [];
const pause = () => new Promise((done) => { setTimeout(done, 500); });
const started = async (name) => {
  const worker = new Worker("../parts/closes.mjs", { type: "module", name });
  await new Promise((done) => {
    worker.onmessage = ({ data }) => {
      lines.push(`${name}: ${data}`);
      done();
    };
  });
  return worker;
};
const closes = await started("closes");
closes.postMessage("close");
closes.postMessage("after");
await pause();
const ends = await started("ends");
ends.postMessage("three");
ends.terminate();
ends.terminate();
ends.postMessage("nobody gets it");
await pause();
const atOnce = new Worker("../parts/closes.mjs", { type: "module" });
atOnce.onmessage = ({ data }) => lines.push(data);
atOnce.terminate();
await pause();
lines.push("end");
console.log(lines.join("\n"));
