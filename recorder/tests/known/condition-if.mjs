// Wrong: the condition is tested by `if`. Of two that are woken by one number the second takes from an empty box.

import { Condition } from "./shared/condition.mjs";
import { Mutex } from "./shared/mutex.mjs";

export const setup = { agents: 3, buffers: [8, 24] };

class Box {
  constructor(words, buffer) {
    this.mutex = new Mutex(words, 0);
    this.filled = new Condition(words, 1);
    this.count = new Uint8Array(buffer, 0, 1);
    this.numbers = new Float64Array(buffer, 8, 2);
  }

  put(number) {
    this.mutex.lock();
    this.numbers[this.count[0]] = number;
    this.count[0] += 1;
    this.filled.notify();
    this.mutex.unlock();
  }

  take() {
    this.mutex.lock();
    if (this.count[0] === 0) this.filled.wait(this.mutex);
    if (this.count[0] === 0) throw new Error("the box is empty");
    this.count[0] -= 1;
    const number = this.numbers[this.count[0]];
    this.mutex.unlock();
    return number;
  }
}

export default function agent({ buffers, agent }) {
  const box = new Box(new Int32Array(buffers[0]), buffers[1]);
  if (agent === 0) {
    box.put(0.25);
    box.put(0.75);
  } else {
    box.take();
  }
}

export const known = { endings: ["finished", "failed"] };
