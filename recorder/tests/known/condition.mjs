// Right: a box for one number, its fullness an ordinary byte, both under a mutex, and a loop round each wait.

import { Condition } from "./shared/condition.mjs";
import { Mutex } from "./shared/mutex.mjs";

export const setup = { agents: 3, buffers: [8, 16] };

class Box {
  constructor(words, buffer) {
    this.mutex = new Mutex(words, 0);
    this.changed = new Condition(words, 1);
    this.full = new Uint8Array(buffer, 0, 1);
    this.number = new Float64Array(buffer, 8, 1);
  }

  put(number) {
    this.mutex.lock();
    while (this.full[0] === 1) this.changed.wait(this.mutex);
    this.number[0] = number;
    this.full[0] = 1;
    this.changed.notify();
    this.mutex.unlock();
  }

  take() {
    this.mutex.lock();
    while (this.full[0] === 0) this.changed.wait(this.mutex);
    const number = this.number[0];
    this.full[0] = 0;
    this.changed.notify();
    this.mutex.unlock();
    return number;
  }
}

export default function agent({ buffers, agent }) {
  const box = new Box(new Int32Array(buffers[0]), buffers[1]);
  if (agent === 0) {
    box.put(0.25);
    box.put(0.75);
  } else {
    const number = box.take();
    if (number !== 0.25 && number !== 0.75) throw new Error(`took ${number}`);
  }
}

export const known = { endings: ["finished"] };
