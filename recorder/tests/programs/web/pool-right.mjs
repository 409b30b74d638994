// Right: two classic workers with a library take turns at a lock in shared memory, and add up what they were sent.
const words = new Int32Array(new SharedArrayBuffer(8));
const workers = [1, 2].map((number) => new Worker("adds.js", { name: `adder ${number}` }));
const done = workers.map((worker) => new Promise((resolve, reject) => {
  const { port1, port2 } = new MessageChannel();
  port1.onmessage = resolve;
  worker.onerror = reject;
  worker.postMessage({ words, port: port2 }, [port2]);
}));
workers.forEach((worker, at) => [3, 4].forEach((number) => worker.postMessage(number + at)));
await Promise.all(done);
if (words[1] !== 16) throw new Error(`the sum is ${words[1]}`);
for (const worker of workers) worker.terminate();
