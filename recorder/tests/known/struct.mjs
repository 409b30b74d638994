// Right: a struct of fields of many sizes, an array for each, all of them under one mutex.

import { Mutex } from "./shared/mutex.mjs";

export const setup = { agents: 2, buffers: [40] };

class Struct {
  constructor(buffer) {
    this.mutex = new Mutex(new Int32Array(buffer, 0, 1));
    this.small = new Int8Array(buffer, 4, 1);
    this.short = new Uint16Array(buffer, 6, 1);
    this.single = new Float32Array(buffer, 8, 1);
    this.word = new Uint32Array(buffer, 12, 1);
    this.double = new Float64Array(buffer, 16, 1);
    this.large = new BigInt64Array(buffer, 24, 1);
    this.largest = new BigUint64Array(buffer, 32, 1);
  }

  step() {
    this.mutex.lock();
    this.small[0] -= 100;
    this.short[0] += 40_000;
    this.single[0] += 0.25;
    this.word[0] = ~this.word[0];
    this.double[0] += 1 / 3;
    this.large[0] -= 1n;
    this.largest[0] -= 1n;
    this.mutex.unlock();
  }
}

export default function agent({ buffers }) {
  new Struct(buffers[0]).step();
}

export function check(buffers) {
  const { small, short, single, word, double, large, largest } = new Struct(buffers[0]);
  const found = [small[0], short[0], single[0], word[0], double[0], large[0], largest[0]].join();
  if (found !== [56, 14_464, 0.5, 0, 2 / 3, -2n, 2n ** 64n - 2n].join()) throw new Error(`the struct has ${found}`);
}

export const known = { endings: ["finished"] };
