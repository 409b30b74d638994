// Where bytes of a program's buffers are in the script of a run, if its memory is more than a script can have.

/** @typedef {NonNullable<import("../run/outcome.mjs").Outcome["windows"]>[number]} ReportedWindow */

/** @param {number} from @param {number} to the byte behind the last one @returns {string} */
const bytesText = (from, to) => (to - from === 1 ? `byte ${from}` : `bytes ${from} to ${to - 1}`);

/**
 * @param {ReportedWindow[]} windows
 * @returns {{ where: string, what: string }[]} where each is in the script, and which bytes of the program it is
 */
export const windowTexts = (windows) => windows.map(({ buffer, name, from, to, block, byte }) => ({
  where: `${bytesText(byte, byte + to - from)} of block ${block}`,
  what: `${bytesText(from, to)} of the program's block ${buffer}${name === "" ? "" : ` (${name})`}`,
}));

/**
 * @template {{ block: number, byte: number }} T
 * @param {ReportedWindow[] | undefined} windows undefined: the script's blocks are the program's
 * @param {T} at some bytes of the program
 * @returns {T} the same, at their place in the script
 */
export function placedIn(windows, at) {
  const window = windows?.find(({ buffer, from, to }) => buffer === at.block && from <= at.byte && at.byte < to);
  return window === undefined ? at : { ...at, block: window.block, byte: window.byte + at.byte - window.from };
}
