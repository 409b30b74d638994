// A pool of two threads by messages alone, which squares five numbers. A worker that is taken from the list of idle
// ones gets the next task.
import { Worker } from "node:worker_threads";

class Pool {
  constructor(size, feed) {
    this.tasks = [];
    this.idle = [];
    this.running = new Map();
    this.feed = feed;
    this.workers = Array.from({ length: size }, () => this.#started());
  }

  #started() {
    const worker = new Worker(new URL("./worker.mjs", import.meta.url));
    worker.on("message", (answer) => {
      const { resolve } = this.running.get(worker);
      this.running.delete(worker);
      this.idle.push(worker);
      resolve(answer);
      this.feed(this);
    });
    this.idle.push(worker);
    return worker;
  }

  run(number) {
    return new Promise((resolve) => {
      this.tasks.push({ number, resolve });
      this.feed(this);
    });
  }

  give(worker, task) {
    this.running.set(worker, task);
    worker.postMessage(task.number);
  }

  close() {
    return Promise.all(this.workers.map((worker) => worker.terminate()));
  }
}

/** @param {(pool: Pool) => void} feed gives tasks to idle workers */
export async function square(feed) {
  const pool = new Pool(2, feed);
  const squares = await Promise.all([1, 2, 3, 4, 5].map((number) => pool.run(number)));
  if (squares.join() !== "1,4,9,16,25") throw new Error(`squares ${squares}`);
  await pool.close();
}
