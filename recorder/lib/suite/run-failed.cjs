// What a test fails with. This is a CommonJS module, since the form of `sabsim/test` for `require` needs it too.
"use strict";

/**
 * A run has failed: the message says all of it. It is no AssertionError, since test runners show two values that differ
 * for such a one, and here are none.
 */
class RunFailed extends Error {
  /** @param {string} message @param {string | undefined} place where the trial is asked for */
  constructor(message, place) {
    super(message);
    // Nobody needs to know where the recorder has thrown this.
    this.stack = stackOf(this, place);
  }
}
// Not an own property: some runners list these.
Object.defineProperty(RunFailed.prototype, "name", { value: "RunFailed", writable: true, configurable: true });

/**
 * @param {Error} error
 * @param {string | undefined} place where the trial is asked for
 * @returns {string} the error's stack, as if that place had thrown it
 */
function stackOf({ name, message }, place) {
  const gap = message.includes("\n") ? "\n\n" : "\n";
  return `${name}: ${message}${place === undefined ? "" : `${gap}    at ${place}`}`;
}

module.exports = { RunFailed, stackOf };
