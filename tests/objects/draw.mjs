// Draws modules of objects by seeds: right ones, and ones with a mutation. Each is a text of a module by itself.
//
// usage: node tests/objects/draw.mjs SEED

/**
 * @typedef {object} ObjectFamily
 * @property {string} name
 * @property {number} words of its memory
 * @property {string[]} operations each the text of a member of `operations`
 * @property {(is: (mutation: string) => boolean) => string} body the members of its class
 * @property {string[]} mutations
 * @property {string} [init] the text of what fills the words
 * @property {string} [model] the members of its class `Model`
 */

/** @type {ObjectFamily[]} */
export const FAMILIES = [
  {
    name: "counter", words: 2, operations: ["add: [1, 2]", "get: []"], mutations: ["load then store", "two words"],
    body: (is) => `
  add(n) {
    ${is("load then store") ? "const old = Atomics.load(this.w, 0); Atomics.store(this.w, 0, old + n); return old;"
    : is("two words") ? "const old = Atomics.add(this.w, 0, n); Atomics.add(this.w, 1, n); return old;"
    : "return Atomics.add(this.w, 0, n);"}
  }
  get() { return Atomics.load(this.w, ${is("two words") ? 1 : 0}); }`,
    model: "n = 0; add(k) { this.n += k; return this.n - k; } get() { return this.n; }",
  },
  {
    name: "register", words: 2, operations: ["swap: [1, 2]", "cas: [[0, 1], [1, 0]]"],
    mutations: ["load then store", "cas by load"],
    body: (is) => `
  swap(n) {
    ${is("load then store") ? "const old = Atomics.load(this.w, 0); Atomics.store(this.w, 0, n); return old;"
    : "return Atomics.exchange(this.w, 0, n);"}
  }
  cas(from, to) {
    ${is("cas by load")
    ? "if (Atomics.load(this.w, 0) !== from) return false; Atomics.store(this.w, 0, to); return true;"
    : "return Atomics.compareExchange(this.w, 0, from, to) === from;"}
  }`,
  },
  {
    name: "set", words: 1, operations: ["insert: [0, 1]", "remove: [0]", "has: [1]"],
    mutations: ["insert by load", "remove says yes", "has looks twice"],
    body: (is) => `
  insert(n) {
    ${is("insert by load")
    ? "const old = Atomics.load(this.w, 0); Atomics.store(this.w, 0, old | (1 << n)); return !(old & (1 << n));"
    : "return (Atomics.or(this.w, 0, 1 << n) & (1 << n)) === 0;"}
  }
  remove(n) {
    const old = Atomics.and(this.w, 0, ~(1 << n));
    return ${is("remove says yes") ? "true" : "(old & (1 << n)) !== 0"};
  }
  has(n) {
    ${is("has looks twice") ? "if ((Atomics.load(this.w, 0) & (1 << n)) !== 0) return true;" : ""}
    return (Atomics.load(this.w, 0) & (1 << n)) !== 0;
  }`,
    model: `s = new Set(); insert(n) { const is = !this.s.has(n); this.s.add(n); return is; }
  remove(n) { return this.s.delete(n); } has(n) { return this.s.has(n); }`,
  },
  {
    name: "stack", words: 4, operations: ["push: [1, 2]", "pop: []"], mutations: ["pop by load", "value late"],
    body: (is) => `
  push(n) {
    for (;;) {
      const packed = Atomics.load(this.w, 0);
      const size = packed & 3;
      if (size === 2) return false;
      const next = (size + 1) | (((packed >> 2) | (n << (2 * size))) << 2);
      ${is("value late") ? `
      if (Atomics.compareExchange(this.w, 0, packed, (size + 1) | (packed & ~3)) === packed) {
        Atomics.or(this.w, 0, n << (2 * size + 2));
        return true;
      }`
    : "if (Atomics.compareExchange(this.w, 0, packed, next) === packed) return true;"}
    }
  }
  pop() {
    for (;;) {
      const packed = Atomics.load(this.w, 0);
      const size = packed & 3;
      if (size === 0) return undefined;
      const n = (packed >> (2 * size)) & 3;
      const next = (size - 1) | (packed & ~3 & ~(3 << (2 * size)));
      ${is("pop by load") ? "Atomics.store(this.w, 0, next); return n;"
    : "if (Atomics.compareExchange(this.w, 0, packed, next) === packed) return n;"}
    }
  }`,
  },
  {
    name: "semaphore", words: 1, init: "words[0] = 1;", operations: ["acquire: []", "release: []", "tryAcquire: []"],
    mutations: ["no notify", "wakes without a change", "waits by an old value", "try by load"],
    body: (is) => `
  acquire() {
    for (;;) {
      const n = Atomics.load(this.w, 0);
      if (n > 0) {
        if (Atomics.compareExchange(this.w, 0, n, n - 1) === n) return;
      } else Atomics.wait(this.w, 0, ${is("waits by an old value") ? "n > 5 ? 1 : n" : "n"});
    }
  }
  release() {
    Atomics.add(this.w, 0, ${is("wakes without a change") ? "0" : "1"});
    ${is("no notify") ? "" : "Atomics.notify(this.w, 0, 1);"}
  }
  tryAcquire() {
    const n = Atomics.load(this.w, 0);
    if (n === 0) return false;
    ${is("try by load") ? "Atomics.store(this.w, 0, n - 1); return true;"
    : "return Atomics.compareExchange(this.w, 0, n, n - 1) === n;"}
  }`,
  },
  {
    name: "lock", words: 2, operations: ["lock: []", 'unlock: { after: "lock" }'],
    mutations: ["no notify", "test then set", "never waits right"],
    body: (is) => `
  lock() {
    ${is("test then set")
    ? "while (Atomics.load(this.w, 0) !== 0) Atomics.wait(this.w, 0, 1); Atomics.store(this.w, 0, 1);"
    : "while (Atomics.compareExchange(this.w, 0, 0, 1) !== 0) Atomics.wait(this.w, 0, 1);"}
    this.w[1] = this.w[1] + 1;
    return this.w[1];
  }
  unlock() {
    Atomics.store(this.w, 0, ${is("never waits right") ? "1" : "0"});
    ${is("no notify") ? "" : "Atomics.notify(this.w, 0, 1);"}
  }`,
  },
  {
    name: "latch", words: 1, init: "words[0] = 2;", operations: ["down: []", "wait: []", "count: []"],
    mutations: ["notifies one", "no notify", "down by load"],
    body: (is) => `
  down() {
    ${is("down by load") ? `
    const n = Atomics.load(this.w, 0);
    if (n === 0) return;
    Atomics.store(this.w, 0, n - 1);` : `
    let n = Atomics.load(this.w, 0);
    for (let was = -1; n > 0 && was !== n;) {
      was = n;
      n = Atomics.compareExchange(this.w, 0, was, was - 1);
    }`}
    const left = n - 1;
    if (left === 0) { ${is("no notify") ? "" : `Atomics.notify(this.w, 0${is("notifies one") ? ", 1" : ""});`} }
  }
  wait() {
    for (;;) {
      const n = Atomics.load(this.w, 0);
      if (n === 0) return;
      Atomics.wait(this.w, 0, n);
    }
  }
  count() { return Atomics.load(this.w, 0); }`,
    model: `n = 2; down() { if (this.n > 0) this.n -= 1; } wait() { return this.n === 0 ? undefined : blocked; }
  count() { return this.n; }`,
  },
  {
    name: "queue", words: 6, init: "words[2] = 0; words[4] = 1;", operations: ["push: [1]", "pop: []"],
    mutations: ["sequence first", "pop by load", "says full early"],
    body: (is) => `
  push(n) {
    for (;;) {
      const tail = Atomics.load(this.w, 0), slot = 2 + 2 * (tail % 2), seq = Atomics.load(this.w, slot);
      if (seq ${is("says full early") ? "!==" : "<"} tail) return false;
      if (seq !== tail || Atomics.compareExchange(this.w, 0, tail, tail + 1) !== tail) continue;
      ${is("sequence first") ? "Atomics.store(this.w, slot, tail + 1); Atomics.store(this.w, slot + 1, n);"
    : "Atomics.store(this.w, slot + 1, n); Atomics.store(this.w, slot, tail + 1);"}
      return true;
    }
  }
  pop() {
    for (;;) {
      const head = Atomics.load(this.w, 1), slot = 2 + 2 * (head % 2), seq = Atomics.load(this.w, slot);
      if (seq < head + 1) return undefined;
      ${is("pop by load") ? "Atomics.store(this.w, 1, head + 1);"
    : "if (seq !== head + 1 || Atomics.compareExchange(this.w, 1, head, head + 1) !== head) continue;"}
      const n = Atomics.load(this.w, slot + 1);
      Atomics.store(this.w, slot, head + 2);
      return n;
    }
  }`,
  },
];

/** @param {number} seed @returns {(count: number) => number} draws whole numbers below a count */
function drawing(seed) {
  let state = (seed * 2_654_435_761 + 12_345) >>> 0;
  return (count) => {
    state = (Math.imul(state ^ (state >>> 15), 0x2c1b3c6d) + 0x9e3779b9) >>> 0;
    return (state >>> 8) % count;
  };
}

/** @typedef {{ name: string, text: string, mutation: string | undefined }} DrawnObject */

/** @param {number} seed @returns {DrawnObject} */
export function drawn(seed) {
  const draw = drawing(seed);
  const { body, init, model, mutations, name, operations, words } = FAMILIES[draw(FAMILIES.length)];
  const mutation = draw(3) === 0 ? undefined : mutations[draw(mutations.length)];
  const used = operations.length > 2 && draw(2) === 0 ? operations.filter((_, at) => at !== 1 + draw(2)) : operations;
  const hasModel = model !== undefined && draw(2) === 0;
  const text = `${hasModel ? 'const blocked = Symbol.for("sabsim.blocked");' : ""}
class Tried {
  constructor(buffer) { this.w = new Int32Array(buffer); }${body((other) => other === mutation)}
}
export const setup = { buffers: [${4 * words}] };
${init === undefined ? "" : `export const init = ([buffer]) => { const words = new Int32Array(buffer); ${init} };`}
export const object = ({ buffers }) => new Tried(buffers[0]);
export const operations = { ${used.join(", ")} };
${hasModel ? `export class Model { ${model} }` : ""}
`;
  return { name: `${name}${hasModel ? " with a model" : ""}`, text, mutation };
}

if (process.argv[1] === new URL(import.meta.url).pathname) console.log(drawn(Number(process.argv[2])).text);
