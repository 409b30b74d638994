// Agents of which two moments can be told apart only by something that is hard to see. In each the first load decides
// what is kept, at least one call lies between, and what was kept is stored at the end.

import { readFileSync } from "node:fs";

/** @param {string} text @param {RegExp} head what each part begins with @returns {[string, string][]} with its name */
function partsOf(text, head) {
  return text.split(head).slice(1).map((part) => {
    const end = part.indexOf("\n");
    return [part.slice(0, end), part.slice(end + 1).trimEnd()];
  });
}

/** @param {string} name of a file beside this one @returns {string} */
const textOf = (name) => readFileSync(new URL(name, import.meta.url), "utf8");

/** @param {string} file @returns {Record<string, string>} bodies by their names */
const bodiesIn = (file) => Object.freeze(Object.fromEntries(
  textOf(file).trimEnd().split(/\n(?! )/).map((row) => /^(.*?):\s+([^]*)$/.exec(row)?.slice(1) ?? []),
));

/** Each is the body of an agent's function, by its name. `ld(i)` loads word i, `out(value)` stores word 2. */
export const BODIES = bodiesIn("bodies.txt");

/** Bodies of which each moment can be shown. */
export const MERGED = bodiesIn("merged.txt");

/** Bodies in which the engine calls `f`, or its like, and has more to do afterwards. */
export const CALLED_BY_ENGINE = bodiesIn("called-by-engine.txt");

/** What the agents of modules do, after the line `AGENT` with the body of the one that loads. */
const AGENT = `export const setup = { agents: 2, buffers: [16] };
export default function agent({ buffers, agent: self }) {
  const words = new Int32Array(buffers[0]);
  const ld = (i) => Atomics.load(words, i);
  const out = (value) => { Atomics.store(words, 2, value); };
  if (self === 0) { BODY return; }
  for (const [at, value] of [[0, 1], [1, 2], [0, 2], [1, 0]]) Atomics.store(words, at, value);
}`;

/** Modules that keep something: of each the texts of its files, the agents' own first. */
export const MODULES = Object.freeze(Object.fromEntries(partsOf(textOf("modules.txt"), /^## /m).map(([name, part]) => {
  const ofAgent = (/** @type {string} */ _, /** @type {string} */ body) => AGENT.replace("BODY", () => body);
  return [name, partsOf(part, /^# /m).map(([file, text]) => [file, text.replace(/^AGENT (.*)$/m, ofAgent)])];
})));

/** @param {string} body @returns {string} the text of a module of two agents */
export const moduleOf = (body) => `export const setup = { agents: 2, buffers: [16] };
let words;
let bytes;
let kept = 0;
const held = { n: 0 };
class Box { #n = 0; put(n) { this.#n = n; } peek() { return this.#n; } }
const ld = (i) => Atomics.load(words, i);
const out = (value) => { Atomics.store(words, 2, value); };
function nasty() { ${body} }
export default function agent({ buffers, agent: self }) {
  words = new Int32Array(buffers[0]);
  bytes = new Uint8Array(buffers[0]);
  if (self === 0) { nasty(); return; }
  Atomics.store(words, 0, 1);
  Atomics.store(words, 1, 2);
  Atomics.store(words, 0, 2);
  Atomics.store(words, 1, 0);
}
`;

/** Agents whose state counts for long, and what they throw in some schedule. */
export const LONG = Object.freeze({
  "a counter to 1,000": ["1000 looks", `let n = 0;
    while (ld(0) === 0) {
      n += 1;
      if (n === 1000) throw new Error("1000 looks");
    }`, "Atomics.store(words, 0, 1);"],
  "a combination": ["opened", `const code = [3, 1, 4, 1, 5, 9, 2, 6];
    let at = 0;
    for (let k = 0; k < 20; k += 1) {
      at = ld(0) === code[at] ? at + 1 : 0;
      if (at === 8) throw new Error("opened");
    }`, "for (const digit of [3, 1, 4, 1, 5, 9, 2, 6]) Atomics.store(words, 0, digit);"],
  "30 zeros and 30 ones in any order": ["both", `let zeros = 0;
    let ones = 0;
    while (zeros < 30 || ones < 30) {
      if (ld(0) === 0) zeros += 1;
      else ones += 1;
      if (zeros > 30 || ones > 30) return;
    }
    throw new Error("both");`, "for (let k = 0; k < 3; k += 1) Atomics.store(words, 0, 1 - k % 2);"],
});

/** @param {string} body of the one agent @param {string} other that of the other one @returns {string} */
export const longModuleOf = (body, other) => `export const setup = { agents: 2, buffers: [16] };
let words;
const ld = (i) => Atomics.load(words, i);
function long() { ${body} }
export default function agent({ buffers, agent: self }) {
  words = new Int32Array(buffers[0]);
  if (self === 0) long();
  else { ${other} }
}
`;
