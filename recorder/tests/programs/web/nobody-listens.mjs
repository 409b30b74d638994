// Wrong: the worker throws if a question comes before the factor, and nobody listens to its errors.
const worker = new Worker("multiplies.mjs", { type: "module" });
const factors = new BroadcastChannel("factors");
worker.onmessage = ({ data }) => {
  if (data !== "ready") return;
  factors.postMessage(6);
  worker.postMessage(7);
};
