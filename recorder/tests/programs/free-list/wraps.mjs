// Wrong: as right, but the head counts its changes by two bits, and so comes back after four.
import { once } from "node:events";
import { Worker, isMainThread, workerData } from "node:worker_threads";
import { FREE, FreeList } from "./list.mjs";

const MOST = 64;

class ShortList extends FreeList {
  changed(head, node) {
    const next = (((head & ~15) + 16) % MOST) | node;
    return Atomics.compareExchange(this.words, FREE, head, next) === head;
  }
}

const words = isMainThread ? new Int32Array(new SharedArrayBuffer(20)) : workerData;
const list = new ShortList(words, { counts: true });
if (isMainThread) {
  words.set([1, 2, 3, 4, 0]);
  const other = new Worker(new URL(import.meta.url), { workerData: words });
  list.push(list.pop());
  await once(other, "exit");
  const nodes = [1, 2, 3, 4].map(() => list.pop());
  if (new Set(nodes).size < 4) throw new Error(`the free nodes are ${nodes}`);
} else {
  const nodes = [list.pop(), list.pop(), list.pop()];
  for (const node of nodes) list.push(node);
}
