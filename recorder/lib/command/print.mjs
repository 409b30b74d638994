// Standard output, and how it fails: a result that nobody got is no success.

/** Standard output can't be written. */
export class NotPrinted extends Error {}

/** @param {string} text @returns {Promise<void>} when it is written */
export function print(text) {
  return new Promise((done, fail) => {
    /** @param {Error} error */
    const failed = (error) => fail(new NotPrinted(`standard output can't be written: ${error.message}`));
    process.stdout.once("error", failed);
    process.stdout.write(text, (error) => {
      // If it failed, an event reports it.
      if (error) return;
      process.stdout.off("error", failed);
      done();
    });
  });
}
