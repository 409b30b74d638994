// What the agents' code has thrown, as real runs say it, as far as that can be said of rewritten code.

import { foundBy, leftOpen } from "../../agent/answer.mjs";
import { NOT_SHOWN, described, titleOf } from "../../agent/described.mjs";
import { OWN_NAMES } from "../rewriting/naming.mjs";

/** The frames in the text of a stack, from the first on. Those of rewritten code have other places. */
const FRAMES = /\n {4}at \S[^]*$/;

/** @param {unknown} thrown @returns {string} without its stack, and without what it has of another one */
export const thrownText = (thrown) => whole(thrown).replace(FRAMES, "");

/** @param {unknown} thrown @returns {string} without its stack */
function whole(thrown) {
  if (!(thrown instanceof Error)) return described(thrown);
  // The message of an `assert(x)` without a text is made of the code there, which was rewritten.
  const { code, generatedMessage, operator } = /** @type {any} */ (thrown);
  if (code === "ERR_ASSERTION" && generatedMessage === true && operator === "==") return `${thrown.name} [${code}]`;
  try {
    return titleOf(thrown);
  } catch {
    return NOT_SHOWN;
  }
}

/** @param {unknown} thrown @returns {boolean} whether its message may quote code, as that of a function's clone does */
const mayQuote = (thrown) =>
  thrown instanceof TypeError || (thrown instanceof DOMException && thrown.name === "DataCloneError");

/** @param {unknown} thrown @param {string} title of it @returns {boolean} whether that names rewritten code */
export const namesRewritten = (thrown, title) => mayQuote(thrown) && OWN_NAMES.test(title);

/**
 * What goes wrong in `init` or `check`.
 * @param {() => unknown} call
 * @returns {string | undefined} in words that follow the name of what is called
 */
export function problemOf(call) {
  try {
    const answer = call();
    return leftOpen(answer, "it") ?? foundBy(answer);
  } catch (thrown) {
    const text = thrownText(thrown);
    return `threw ${namesRewritten(thrown, text) ? "TypeError" : text}`;
  }
}
