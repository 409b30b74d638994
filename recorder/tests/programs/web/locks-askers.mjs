// Two workers ask for the same two locks, each in an order of its own.
export async function ask(...orders) {
  const had = orders.map((names) => {
    const worker = new Worker("locks-crossed-worker.mjs", { type: "module" });
    worker.postMessage(names);
    return new Promise((done) => { worker.onmessage = done; });
  });
  await Promise.all(had);
}
