// Two workers read a table, and one writes it, under a lock. The writer asks for the lock in the mode that is given.
export async function use(mode) {
  const table = new Int32Array(new SharedArrayBuffer(16));
  const asked = [{ writes: false, mode: "shared" }, { writes: false, mode: "shared" }, { writes: true, mode }];
  const done = asked.map((each) => {
    const worker = new Worker("locks-table.mjs", { type: "module" });
    worker.postMessage({ table, ...each });
    return new Promise((end) => { worker.onmessage = end; });
  });
  await Promise.all(done);
  await navigator.locks.request("table", { mode: "shared" }, () => {
    if (table[3] !== 1) throw new Error(`it is ${table[3]}`);
  });
}
