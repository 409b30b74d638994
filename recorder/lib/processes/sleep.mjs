// A pause in which this thread does nothing.

const nothing = new Int32Array(new SharedArrayBuffer(Int32Array.BYTES_PER_ELEMENT));

/** @param {number} milliseconds */
export function sleep(milliseconds) {
  Atomics.wait(nothing, 0, 0, milliseconds);
}
