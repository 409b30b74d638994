// Wrong: givers and takers wait for one condition, and one of them is woken. Where it is a taker that wakes a taker,
// the giver sleeps on, before an empty box.

import { Condition } from "./shared/condition.mjs";
import { Mutex } from "./shared/mutex.mjs";

export const setup = { agents: 4, buffers: [8, 2] };

class Box {
  constructor(words, bytes) {
    this.mutex = new Mutex(words, 0);
    this.changed = new Condition(words, 1);
    this.bytes = bytes;
  }

  put(byte) {
    this.mutex.lock();
    while (this.bytes[0] === 1) this.changed.wait(this.mutex);
    this.bytes.set([1, byte]);
    this.changed.notify(1);
    this.mutex.unlock();
  }

  take() {
    this.mutex.lock();
    while (this.bytes[0] === 0) this.changed.wait(this.mutex);
    const byte = this.bytes[1];
    this.bytes.fill(0);
    this.changed.notify(1);
    this.mutex.unlock();
    return byte;
  }
}

export default function agent({ buffers, agent }) {
  const box = new Box(new Int32Array(buffers[0]), new Uint8Array(buffers[1]));
  if (agent < 2) box.put(agent + 1);
  else if (box.take() === 0) throw new Error("took nothing");
}

export const known = { endings: ["finished", "deadlock"] };
