// Random agents that keep things in many ways: one of them loads, and stores at the end what it has kept.

/** Draws from a row of numbers that a seed gives. */
export class Draw {
  /** @param {number} seed */
  constructor(seed) {
    this.state = seed * 7919 + 1;
  }

  /** @param {number} most @returns {number} from 0, below that */
  below(most) {
    this.state = (Math.imul(this.state, 1_664_525) + 1_013_904_223) | 0;
    const mixed = Math.imul(this.state ^ (this.state >>> 15), 0x85ebca6b);
    return ((mixed ^ (mixed >>> 13)) >>> 0) % most;
  }

  /** @template T @param {readonly T[]} all @returns {T} */
  of(all) {
    return all[this.below(all.length)];
  }
}

const LOADS = [
  "ld(0)", "ld(1)", "Atomics.load(words, 0)", "Atomics.exchange(words, 1, 0)", "box.get()", "box.is", "o.m(0)",
  "parity()", "words[0]", "words[1]", "bytes[4]",
];

/** @typedef {(one: Writer, depth: number) => string} Form writes an expression or a statement */

/** @type {Form[]} */
const EXPRESSIONS = [
  (one, depth) => `(${one.expression(depth)} + ${one.load()})`,
  (one, depth) => `(${one.load()} * 2 + ${one.expression(depth)})`,
  (one, depth) => `three(${one.expression(depth)}, ${one.load()}, ${one.expression(depth)})`,
  (one, depth) => `[${one.expression(depth)}, ${one.load()}, ${one.name()}].reduce(sum, 0)`,
  (one, depth) => `(${one.expression(depth)} > 1 ? ${one.name()} : ${one.load()})`,
  (one, depth) => `(${one.name()} && ${one.expression(depth)})`, (one) => one.name(),
  (one, depth) => `(${one.name()} = ${one.expression(depth)})`,
  (one) => `(${one.name()} += ${one.load()})`, () => "o.n",
  (one) => `${one.name()}++`, (one) => `Number(\`\${${one.name()}}\${${one.load()}}\`)`,
  (one) => `({ x: ${one.name()}, y: ${one.load()} }).y`, (one) => `(o.n += ${one.load()})`,
  (one) => `o.f(${one.name()}, ${one.load()})`,
  (one, depth) => `(list[${one.draw.below(2)}] = ${one.expression(depth)})`,
  (one) => `list[${one.name()} % 2 | 0]`, () => "increase()", () => "(k ?? 1)",
];

/** @type {Form[]} */
const STATEMENTS = [
  (one) => `${one.name()} = ${one.expression(2)};`, (one) => `${one.name()} = ${one.expression(2)} % 3;`,
  (one, depth) => `if (${one.expression(1)} > 1) { ${one.statement(depth)} } else { ${one.statement(depth)} }`,
  (one, depth) => `for (let i = 0; i < 2; i += 1) { ${one.statement(depth)} ${one.name()} += i; }`,
  (one, depth) => {
    const name = one.newName();
    return `{ const ${name} = ${one.expression(2)}; ${one.statement(depth)} ${one.name()} = ${name}; }`;
  },
  (one, depth) => `for (const q of [${one.name()}, 1]) { ${one.statement(depth)} c += q; if (c > 40) break; }`,
  (one, depth) => `try { ${one.statement(depth)} if (${one.name()} > 2) throw ${one.name()}; ${one.statement(depth)} } `
    + `catch (x) { a = x + 1; ${one.statement(depth)} }`,
  (one) => `${one.name()} = looks(${one.name()});`,
  (one, depth) => `switch (${one.expression(1)}) { case ${one.expression(1)}: ${one.statement(depth)} break; `
    + `case 1: ${one.statement(depth)} default: b = 2; }`,
  (one, depth) => {
    const name = one.newName();
    return `{ let y${name} = ${one.name()}; const ${name} = () => (y${name} += 1) + ${one.name()}; `
      + `${one.statement(depth)} a = ${name}(); o.h = ${name}; }`;
  },
  () => "if (o.h) b = o.h();", () => "if (o.h) b = o.h() % 4;",
  (one) => `box.put(${one.name()}); ${one.name()} = ${one.load()};`, () => "a = box.is + b;",
  (one) => `keep(${one.expression(1)} % 3);`, (one) => `${one.name()} = kept();`,
  (one, depth) => `box.put(${one.expression(1)}); ${one.statement(depth)}`,
  (one, depth) => `keep(${one.load()}); ${one.statement(depth)}`,
  (one, depth) => `{ const p = new Box(); p.put(${one.name()}); ${one.statement(depth)} if (p.is > 2) box.put(1); }`,
  (one) => `while (${one.load()} === 0) { ${one.name()} = ${one.expression(1)} % 2; if (++turns > 2) break; }`,
  (one, depth) => `weak.set(o, ${one.name()} % 2); ${one.statement(depth)} a = weak.get(o) ?? 3;`,
  (one) => `o = { ...o, n: ${one.name()} };`, (one) => `if (${one.expression(1)} > 2) other = o;`,
  (one) => `other.n = ${one.name()};`,
  (one) => `{ const [p, r] = [${one.expression(1)}, ${one.expression(1)}]; a = p; c = r % 5; }`,
  (one) => `do { ${one.name()} = ${one.expression(1)} % 2; if (++turns > 4) break; } while (${one.load()} > 2);`,
  (one) => `k = ${one.name()} > 1 ? null : ${one.name()};`, (one) => `map.set(${one.name()} % 2, ${one.name()});`,
  (one) => `words[3] += ${one.name()};`, (one) => `bytes[13] = ${one.name()};`, () => "words[3]++;",
  (one) => `${one.name()} += words[0];`, (one) => `bytes[12 + (${one.name()} & 1)] += ${one.name()};`,
  (one) => `{ const p = { m() { return ${one.name()}; }, n: ${one.load()} }; a = p.m() + p.n; }`,
  (one, depth) => `try { for (;;) { if (++turns > 2) throw turns; ${one.statement(depth)} } } `
    + `catch { b = ${one.name()}; }`,
  (one, depth) => `{ const s = ${one.name()} > 1 ? Symbol("s") : Symbol("r"); ${one.statement(depth)} `
    + "c = s.description === \"s\" ? 1 : 2; }",
  (one, depth) => {
    const name = one.newName();
    return `{ const ${name} = ${one.name()}; class P { static v() { return ${name}; } } ${one.statement(depth)} `
      + "a = P.v(); }";
  },
  (one) => `{ const q = { ...{ get x() { return ${one.load()}; }, y: ${one.name()} } }; a = q.x + q.y; }`,
  (one, depth) => `{ const p = { g: three.bind(null, ${one.name()}), m() {} }; ${one.statement(depth)} `
    + "b = p.g(1, 2); }",
  (one, depth) => `{ const all = [${one.name()}, 1, 2]; ${one.statement(depth)} a = three(...all) + ${one.load()}; }`,
  () => "b = map.get(0) ?? 7;", (one) => `a = made(${one.name()}).get() + ${one.load()};`,
];

class Writer {
  /** @param {number} seed */
  constructor(seed) {
    this.draw = new Draw(seed);
    /** How many loads may still come. */
    this.loads = 7;
    this.names = 0;
  }

  name() {
    return this.draw.of(["a", "b", "c"]);
  }

  newName() {
    this.names += 1;
    return `z${this.names}`;
  }

  load() {
    if (this.loads === 0) return this.draw.of(["1", "2", this.name()]);
    this.loads -= 1;
    return this.draw.of(LOADS);
  }

  /** @param {number} depth @returns {string} */
  expression(depth) {
    if (depth === 0) return this.draw.of([this.name(), String(this.draw.below(3))]);
    return this.draw.of(EXPRESSIONS)(this, depth - 1);
  }

  /** @param {number} depth @returns {string} */
  statement(depth) {
    return depth === 0 ? `${this.name()} = ${this.expression(1)};` : this.draw.of(STATEMENTS)(this, depth - 1);
  }
}

const BEGINS = `export const setup = { agents: 2, buffers: [16] };
let words;
let bytes;
let count = 0;
const ld = (i) => Atomics.load(words, i);
const parity = () => Atomics.load(words, 0) % 2;
const three = (x, y, z) => (x * 3 + y * 2 + z) % 7;
const sum = (x, y) => x + y;
const made = (n) => ({ get() { return n; } });
function increase() { count = (count + 1) % 3; return count; }
function looks(x) {
  try { if (x > 1) return ld(0) + x; x += ld(1); } finally { count += Atomics.load(words, 0); }
  return x;
}
class Box {
  #n = 0;
  put(n) { this.#n = n % 2; }
  peek() { return this.#n; }
  get() { return this.#n + ld(0); }
  get is() { return this.#n * 2 + ld(1); }
}
`;

/** @param {number} seed @returns {string} the text of a module of agents */
export function programOf(seed) {
  const writer = new Writer(seed);
  const last = writer.draw.below(4);
  const body = Array.from({ length: 5 }, () => `  ${writer.statement(2)}`).join("\n");
  return `${BEGINS}export default function agent({ buffers, agent: self }) {
  words = new Int32Array(buffers[0]);
  bytes = new Uint8Array(buffers[0]);
  count = 0;
  if (self === 1) { Atomics.store(words, 0, 1); Atomics.store(words, 1, 2); Atomics.store(words, 0, ${last}); return; }
  let [a, b, c] = [0, 0, 1];
  let k = null;
  let turns = 0;
  let secret = 0;
  const keep = (x) => { secret = x; };
  const kept = () => secret;
  const weak = new WeakMap();
  let o = { n: 1, h: null, m: (i) => Atomics.load(words, i), f: three };
  let other = { n: 5 };
  const list = [0, 1];
  const map = new Map();
  const box = new Box();
${body}
  const sums = three(a, b, c) * 100 + three(o.n, other.n, count) * 10;
  Atomics.store(words, 2, sums + list[0] + list[1] + 1000 * box.peek() + 10000 * kept());
  Atomics.add(words, 3, ((a | 0) & 15) + 16 * ((b | 0) & 15) + 256 * ((c | 0) & 15));
}
`;
}
