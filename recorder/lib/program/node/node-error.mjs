// Errors with a code, as node makes them.

/**
 * An error as node makes it.
 * @param {string} code
 * @param {string} message
 * @param {object} [members]
 * @param {ErrorConstructor | TypeErrorConstructor} [Kind]
 */
export function nodeError(code, message, members = {}, Kind = Error) {
  const error = new Kind(message);
  // The stack is made with the code in it, and the name stays as it was.
  error.name = `${error.name} [${code}]`;
  void error.stack;
  delete (/** @type {any} */ (error)).name;
  return Object.assign(error, { code, ...members });
}
