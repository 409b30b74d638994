// Wrong: the worker listens only when it has loaded what it needs, and a message that comes before is lost.
const worker = new Worker("parts/listens-late.mjs", { type: "module" });
worker.postMessage("a job");
await new Promise((resolve) => {
  worker.onmessage = ({ data }) => { if (data === "a job") resolve(); };
});
