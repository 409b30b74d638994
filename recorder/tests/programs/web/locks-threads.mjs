// Two workers count under a lock, each in a way of its own. What both have counted has to be there.
export async function count(...ways) {
  const words = new Int32Array(new SharedArrayBuffer(4));
  const counted = ways.map((how) => {
    const worker = new Worker("locks-counts.mjs", { type: "module" });
    worker.postMessage({ words, how });
    return new Promise((done) => { worker.onmessage = done; });
  });
  await Promise.all(counted);
  if (Atomics.load(words, 0) !== 2) throw new Error(`counted ${Atomics.load(words, 0)}`);
}
