// Random small modules of agents, as people write them: each part loads and changes a few words, and keeps things.

import { Draw } from "./every-programs.mjs";
import { HOLDERS } from "./random-holders.mjs";

/** What parts may use. */
const HELPERS = `class Word {
  #words; #at;
  constructor(words, at = 0) { this.#words = words; this.#at = at; }
  get value() { return Atomics.load(this.#words, this.#at); }
  set value(k) { Atomics.store(this.#words, this.#at, k & 7); }
  bump(k = 1) { return Atomics.add(this.#words, this.#at, k); }
  take() { return Atomics.compareExchange(this.#words, this.#at, 0, 1) === 0 ? 1 : 0; }
}
class Base { constructor(k) { this.k = k; } value() { return this.k; } }
class Sub extends Base { constructor(k, z = 1) { super(k); this.z = z; } value() { return super.value() + this.z; } }
class Steps {
  constructor(words, left = 2) { this.words = words; this.left = left; }
  [Symbol.iterator]() { return this; }
  next() { this.left -= 1; return this.left < 0 ? { done: true } : { value: Atomics.load(this.words, this.left) }; }
  return() { this.left = -1; return {}; }
}
const depth = (n, f) => (n <= 0 ? f() : depth(n - 1, f) + 1);
const twice = (f, x) => f?.(f(x) & 3);`;

/** @typedef {(one: Part, depth: number) => string} Write writes an expression, or a statement */

/** @type {readonly Write[]} each asks for shared memory */
const CALLS = [
  (one) => `Atomics.load(words, ${one.word()})`, (one) => `Atomics.load(words, ${one.word()})`,
  (one) => `Atomics.load(words, ${one.word()})`, (one) => `Atomics.add(words, ${one.word()}, ${1 + one.below(2)})`,
  (one) => `Atomics.exchange(words, ${one.word()}, ${one.below(4)})`,
  (one) => `Atomics.compareExchange(words, ${one.word()}, ${one.below(2)}, ${1 + one.below(3)})`,
  (one) => `Atomics.store(words, ${one.word()}, ${one.below(4)})`,
  (one) => `(Atomics.wait(words, ${one.word()}, ${one.below(2)}, 10) === "timed-out" ? 1 : 0)`,
  (one) => `Atomics.notify(words, ${one.word()}${one.of(["", ", 1", ", 0"])})`,
  (one) => `new Word(words, ${one.word()}).${one.of(["value", "bump()", "bump(2)", "take()"])}`,
  (one) => `(new Word(words, ${one.word()}).value${one.of(["++", "--", ` = ${one.below(4)}`, " += 1"])})`,
  (one) => `(({ value, k = value }) => k)(new Word(words, ${one.word()}))`,
  (one) => `new Set(new Steps(words, ${1 + one.below(2)})).size`,
  () => "Number(Atomics.add(wide, 2, 1n))", () => "Atomics.add(bytes, 11, 1)",
  (one) => `Atomics.sub(words, ${one.word()}, 1)`,
];

/** @type {readonly Write[]} */
const EXPRESSIONS = [
  (one) => one.name(), (one) => one.name(),
  (one, depth) => `((${one.expression(depth)} + ${one.expression(depth)}) & 7)`,
  (one, depth) => `(${one.expression(depth)} ^ ${one.expression(depth)})`,
  (one, depth) => `(${one.condition(depth)} ? ${one.expression(depth)} : ${one.expression(depth)})`,
  (one, depth) => `[${one.expression(depth)}, ${one.expression(depth)}][${one.below(2)}]`,
  (one, depth) => `({ a: ${one.expression(depth)}, b: ${one.expression(depth)} }).${one.of(["a", "b"])}`,
  (one, depth) => `\`\${${one.expression(depth)}}\${${one.name()}}\`.length`,
  (one, depth) => `depth(${1 + one.below(2)}, () => ${one.expression(depth)})`,
  (one, depth) => `twice((y) => y + ${one.expression(depth)}, ${one.name()})`,
  (one, depth) => `[${one.below(3)}, 1].map((y) => (y + ${one.expression(depth)}) & 7)[0]`,
  (one, depth) => `[${one.below(2)}, 1].reduce((s, y) => (s + y + ${one.expression(depth)}) & 7, ${one.name()})`,
  (one, depth) => `((a, b = ${one.name()}) => (a * 2 + b) & 7)(${one.expression(depth)})`,
  (one, depth) => `((a = ${one.expression(depth)}, b = ${one.expression(depth)}, c = a) => (a * 2 + b + c) & 7)`
    + `(${one.of(["", one.name(), `undefined, ${one.name()}`])})`,
  (one, depth) => `"ab".replace(/[ab]/g, (c, at) => (at + ${one.expression(depth)}) & 3).length`,
  (one, depth) => `(new (class${one.of(["", " extends Base"])} { n = ${one.expression(depth)}; #m = this.n + `
    + `${one.expression(depth)}; get m() { return this.#m & 7; } })().m)`,
  (one, depth) => `new Sub(${one.expression(depth)}).value()`,
  (one, depth) => `Math.max(${one.expression(depth)}, ...[${one.expression(depth)}])`,
  (one, depth) => `(${one.name()}, ${one.expression(depth)})`,
  (one, depth) => `({ m: (x) => x & 7 }).m?.(${one.expression(depth)})`,
];

/** @type {readonly Write[]} */
const STATEMENTS = [
  (one) => one.assignment(), (one) => one.assignment(), (one) => one.holder(), (one) => one.holder(),
  (one) => one.holder(), (one) => one.holder(),
  (one, depth) => `if (${one.condition(1)}) ${one.block(depth)}${one.of(["", ` else ${one.block(depth)}`])}`,
  (one, depth) => one.loop((name, body) => `for (let ${name} = 0; ${name} < 2; ${name} += 1) ${body}`, depth),
  (one, depth) => one.loop((name, body) => `for (const ${name} of ${one.of(SOURCES)}) ${body}`, depth),
  (one, depth) => `try { ${one.leaving()} ${one.inner(depth)} } catch (e) ${one.block(depth)}`,
  (one, depth) => `try { ${one.leaving()} ${one.inner(depth)} } finally ${one.unleft(depth)}`,
  (one, depth) => `try { ${one.leaving()} ${one.inner(depth)} } catch ${one.block(depth)} `
    + `finally ${one.unleft(depth)}`,
  (one, depth) => one.closure(depth), (one) => one.elements(),
  (one, depth) => `switch (${one.expression(1)}) { case 1: ${one.block(depth)} case 2: ${one.block(depth)} break; `
    + `default: ${one.block(depth)} }`,
  (one) => `Atomics.store(words, ${one.word()}, ${one.below(3)}); Atomics.notify(words, ${one.word()});`,
  (one) => `for (let t = 0; t < 2 && Atomics.load(words, ${one.word()}) === 0; t += 1) `
    + `Atomics.wait(words, ${one.word()}, 0, 5);`,
  (one) => `if (Atomics.load(words, ${one.word()}) === 1) sum = bytes[12];`, () => "bytes[12] = 1;",
];

const SOURCES = [
  "[1, 2]", "new Set([2, 1])", "[3, 4].keys()", "new Map([[1, 2], [2, 1]]).values()", "new Set([1, 0]).values()",
  "[2, 1].values()", "Object.keys({ a: 1, b: 2 }).map(Number.isNaN).map(Number)",
];

/** Writes what one of the agents does. */
class Part {
  /** @param {Draw} draw @param {number} calls how many calls of Atomics may be written */
  constructor(draw, calls) {
    this.draw = draw;
    this.calls = calls;
    this.count = 0;
    /** @type {string[]} what can be read */
    this.readable = ["sum"];
    /** @type {{ changes: string, reads: string }[]} */
    this.holders = [];
    this.isInLoop = false;
  }

  /** @param {number} most */
  below(most) {
    return this.draw.below(most);
  }

  /** @template T @param {readonly T[]} all @returns {T} */
  of(all) {
    return this.draw.of(all);
  }

  word() {
    return this.below(3);
  }

  /** @param {string} [begins] */
  newName(begins = "x") {
    this.count += 1;
    return `${begins}${this.count}`;
  }

  name() {
    return this.below(3) === 0 ? `${this.below(4)}` : this.of(this.readable);
  }

  /** @param {number} depth @returns {string} */
  expression(depth) {
    if (this.calls > 0 && this.below(10) < 2 + 2 * depth) {
      this.calls -= 1;
      return this.of(CALLS)(this, depth);
    }
    return depth === 0 ? this.name() : this.of(EXPRESSIONS)(this, depth - 1);
  }

  /** @param {number} depth */
  condition(depth) {
    return this.of([`${this.expression(depth)} > ${this.below(3)}`, `(${this.expression(depth)} & 1)`]);
  }

  /** @param {number} depth @returns {string} */
  statement(depth) {
    return depth === 0 ? this.assignment() : this.of(STATEMENTS)(this, depth - 1);
  }

  assignment() {
    return `sum ${this.of(["=", "^=", "|="])} ${this.expression(2)};`;
  }

  holder() {
    if (this.holders.length > 0 && this.below(2) === 0) {
      return this.of(this.holders).changes.replace("EXPR", () => this.expression(2));
    }
    const name = this.newName("h");
    const [declares, changes, reads] = this.of(HOLDERS).map((text) => text.replaceAll("@", name));
    const change = changes.replace("EXPR", () => this.expression(2));
    this.holders.push({ changes, reads });
    this.readable.push(reads);
    return `${declares}\n${change}`;
  }

  /** @param {number} depth @returns {string} statements of a block: what they declare is known in it alone */
  inner(depth) {
    const { holders, readable } = this;
    this.holders = [...holders];
    this.readable = [...readable];
    const text = Array.from({ length: 1 + this.below(2) }, () => this.statement(depth)).join("\n");
    this.holders = holders;
    this.readable = readable;
    return text;
  }

  /** @param {number} depth */
  block(depth) {
    return `{ ${this.inner(depth)} }`;
  }

  /** @param {number} depth @returns {string} a block without jumps out of a loop */
  unleft(depth) {
    const { isInLoop } = this;
    this.isInLoop = false;
    const text = this.block(depth);
    this.isInLoop = isInLoop;
    return text;
  }

  /** @param {(name: string, body: string) => string} write @param {number} depth */
  loop(write, depth) {
    const { isInLoop, readable } = this;
    const name = this.newName("i");
    this.readable = [...readable, `(${name} | 0)`];
    this.isInLoop = true;
    const text = write(name, this.block(depth));
    this.isInLoop = isInLoop;
    this.readable = readable;
    return text;
  }

  /** @returns {string} what may leave a block */
  leaving() {
    const ways = ["throw 1;", `throw new Error("t");`, `return ${this.name()};`];
    return `if (${this.condition(1)}) ${this.of(this.isInLoop ? [...ways, "continue;", "break;"] : ways)}`;
  }

  /** @returns {string} names that get what is gone through */
  elements() {
    const name = this.newName("e");
    const text = `const [${name}, ${this.of(["", "..."])}more${name}] = new Steps(words, ${1 + this.below(3)});`;
    this.readable.push(`(${name} | 0)`);
    return text;
  }

  /** @param {number} depth */
  closure(depth) {
    const name = this.newName("f");
    const { isInLoop } = this;
    this.isInLoop = false;
    const body = `{ ${this.inner(depth)} return (y ^ ${this.expression(1)}) & 7; }`;
    this.isInLoop = isInLoop;
    return this.of([
      `const ${name} = (y = ${this.name()}) => ${body};\nsum = ${name}(${this.expression(1)});`,
      `function ${name}(y) ${body}\nsum = ${name}?.(${this.expression(1)});`,
      `const ${name} = { m(y) ${body} };\nsum = ${name}.m(${this.expression(1)});`,
      `const ${name} = (function (y) ${body}).bind(null, ${this.expression(1)});\nsum = ${name}();`,
    ]);
  }

  /** @returns {string} the body of its function */
  body() {
    const statements = Array.from({ length: 4 + this.below(4) }, () => this.statement(2));
    const reads = this.holders.map((one) => one.reads).slice(0, 4);
    return `let sum = 0;\n${statements.join("\n")}\nreturn (${["sum", ...reads].join(" + ")}) & 15;`;
  }
}

/** @param {Draw} draw @returns {string} a part that stores a few values for the others */
function storing(draw) {
  const stores = Array.from({ length: 3 + draw.below(2) }, (_, at) =>
    `Atomics.store(words, ${draw.below(3)}, ${at + 1});`);
  return `${stores.join("\n")}\nAtomics.notify(words, ${draw.below(3)});\nreturn 0;`;
}

/** @param {number} seed @returns {string} the text of a module */
export function randomModule(seed) {
  const draw = new Draw(seed);
  const agents = draw.below(4) === 0 ? 3 : 2;
  const bodies = Array.from({ length: agents }, (_, at) =>
    (at === agents - 1 && draw.below(2) === 0 ? storing(draw) : new Part(draw, agents === 2 ? 8 : 4).body()));
  const parts = bodies.map((body, at) => `function part${at}(words, bytes, wide) {\n${body}\n}`);
  const checks = `export const check = ([buffer]) => new Uint8Array(buffer)[28] !== ${draw.below(13)};\n`;
  return `export const setup = { agents: ${agents}, buffers: [32] };
${HELPERS}
${parts.join("\n")}
export default function agent({ buffers, agent }) {
  const [buffer] = buffers;
  const words = new Int32Array(buffer), bytes = new Uint8Array(buffer), wide = new BigInt64Array(buffer);
  const all = [${bodies.map((_, at) => `part${at}`).join(", ")}];
  const sum = all[agent](words, bytes, wide);
  Atomics.store(bytes, 28 + agent, sum);
  if (sum === ${draw.below(13)}) throw new Error("agent " + agent + " has it");
}
${draw.below(2) === 0 ? checks : ""}`;
}
