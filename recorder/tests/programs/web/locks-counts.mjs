// It counts in shared memory: it reads, lets others go on, and writes. `how` says what it does about the lock.
const WAYS = {
  under: (count) => navigator.locks.request("count", count),
  elsewhere: (count) => navigator.locks.request("counts", count),
  "not awaited": (count) => navigator.locks.request("count", () => { count(); }),
  "shared": (count) => navigator.locks.request("count", { mode: "shared" }, count),
  "in any case": (count) => navigator.locks.request("count", { ifAvailable: true }, count),
  stealing: (count) => navigator.locks.request("count", { steal: true }, count),
};

onmessage = async ({ data: { words, how } }) => {
  await WAYS[how](async () => {
    const before = Atomics.load(words, 0);
    await new Promise((done) => setTimeout(done));
    Atomics.store(words, 0, before + 1);
  }).catch(() => {});
  postMessage("has counted");
};
