// Where the places that `sabsim check` names are in a script's text: `line 2, column 5`, `agents[3].calls[37][1]`.

import { TOKEN } from "../schedule/schedule-text.mjs";

/** @typedef {[number, number]} Span the first character, and the one behind the last */

/**
 * @param {string} text
 * @param {number} line from 1
 * @param {number} column from 1, in bytes of UTF-8
 * @returns {Span} one character
 */
function spanAt(text, line, column) {
  const lines = text.split("\n");
  const start = lines.slice(0, line - 1).reduce((sum, each) => sum + each.length + 1, 0);
  const before = new TextEncoder().encode(lines[line - 1]).subarray(0, column - 1);
  const from = start + new TextDecoder().decode(before).length;
  return [from, Math.min(from + 1, text.length)];
}

/**
 * The value that members and indices lead to.
 * @param {string} text that is JSON
 * @param {(string | number)[]} path
 * @returns {Span | undefined} if several members have one name, the last one's
 */
function spanOfValue(text, path) {
  const tokens = [...text.matchAll(TOKEN)].map(({ 0: token, index = 0 }) => ({ token, from: index }));
  let next = 0;
  /** @type {Span | undefined} */
  let found;
  /**
   * Reads a value.
   * @param {number} depth
   * @param {boolean} isOnPath whether the path has led here
   */
  const read = (depth, isOnPath) => {
    const { token: first, from } = tokens[next++];
    if (first === "{" || first === "[") {
      for (let index = 0; tokens[next].token !== "}" && tokens[next].token !== "]"; index += 1) {
        if (index > 0) next += 1;
        const key = first === "[" ? index : JSON.parse(tokens[next].token);
        if (first === "{") next += 2;
        read(depth + 1, isOnPath && key === path[depth]);
      }
      next += 1;
    }
    const last = tokens[next - 1];
    if (isOnPath && depth === path.length) found = [from, last.from + last.token.length];
  };
  read(0, true);
  return found;
}

/**
 * Where a place is.
 * @param {string} text
 * @param {string} place as `sabsim check` names it
 * @returns {Span | undefined}
 */
export function spanOfPlace(text, place) {
  const [, line, column] = /^line (\d+), column (\d+)$/.exec(place) ?? [];
  if (line !== undefined) return spanAt(text, Number(line), Number(column));
  const path = [...place.matchAll(/\[(\d+)\]|\w+/g)].map(([name, index]) =>
    (index === undefined ? name : Number(index)));
  return spanOfValue(text, place === "script" ? [] : path);
}
