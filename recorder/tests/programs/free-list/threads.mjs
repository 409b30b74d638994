// Main takes one node and gives it back; a worker takes two at a time, twice; at the end all nodes must be there.
import { once } from "node:events";
import { Worker, isMainThread, workerData } from "node:worker_threads";
import { FreeList } from "./list.mjs";

export async function use(options) {
  const words = isMainThread ? new Int32Array(new SharedArrayBuffer(20)) : workerData;
  const list = new FreeList(words, options);
  if (!isMainThread) {
    for (let time = 0; time < 2; time += 1) {
      for (const node of [list.pop(), list.pop()]) list.push(node);
    }
    return;
  }
  words.set([1, 2, 3, 4, 0]);
  const other = new Worker(process.argv[1], { workerData: words });
  list.push(list.pop());
  await once(other, "exit");
  const nodes = [1, 2, 3, 4].map(() => list.pop());
  if (new Set(nodes).size < 4) throw new Error(`the free nodes are ${nodes}`);
}
