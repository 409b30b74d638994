// How large the stack of a program's first thread is. In node it is that of the process, about a quarter of a Worker's.
// So a function can call itself less deeply there. And a message that a Worker has sent may have too many objects in
// each other to be read there.

/** What the engine takes by default, in KB. */
const BY_DEFAULT = 984;

/** Of a Worker's stack node keeps so much for itself, in KB. */
const KEPT = 192;

/** The recorder's own calls below the program's. */
const OWN = 40;

const ASKED = /^--stack[-_]size=(\d+)$/;

/**
 * @param {readonly string[]} words of node's command line
 * @returns {{ stackSizeMb: number }} the limits of the thread
 */
export function firstStack(words) {
  const asked = words.flatMap((word) => ASKED.exec(word)?.[1] ?? []);
  return { stackSizeMb: (Number(asked.at(-1) ?? BY_DEFAULT) + KEPT + OWN) / 1_024 };
}
