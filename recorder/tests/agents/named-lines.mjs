// Accesses whose lines of code are found in several ways. The first argument says which one is made.

import assert from "node:assert/strict";

const nested = (value, depth) => (depth === 0 ? value : { inner: nested(value, depth - 1) });

const WAYS = {
  element: (bytes) => bytes[0],
  view: (bytes) => new DataView(bytes.buffer).getUint8(0),
  find: (bytes) => bytes.find(() => true),
  iteration: ([first]) => first,
  // The recorder's own frames are many here: each object has some.
  nested: (bytes) => assert.deepEqual(nested(bytes, 40), nested(bytes, 40)),
  limited(bytes) {
    Error.stackTraceLimit = 0;
    Error.prepareStackTrace = () => "nothing";
    const read = bytes[0];
    if (Error.stackTraceLimit !== 0 || Error.prepareStackTrace() !== "nothing") throw new Error("they were changed");
    return read;
  },
  frozen(bytes) {
    Object.freeze(Error);
    return bytes[0];
  },
};

export default function agent({ buffers, args: [way] }) {
  WAYS[way](new Uint8Array(buffers[1]));
  Atomics.load(new Int32Array(buffers[0]), 0);
}
