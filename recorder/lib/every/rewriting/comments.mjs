// Where something stands in a module's text, outside of comments.

/**
 * @param {string} source
 * @param {string} text that stands behind a place, with nothing but blanks, brackets and comments before it
 * @param {number} from
 * @returns {number}
 */
export function positionOutsideComments(source, text, from) {
  const escaped = text.replace(/[$()*+.?[\\\]^{|}]/g, "\\$&");
  const token = new RegExp(`/\\*[^]*?\\*/|//.*|${escaped}`, "g");
  token.lastIndex = from;
  let found = token.exec(source);
  while (found !== null && found[0] !== text) found = token.exec(source);
  return found === null ? -1 : found.index;
}
