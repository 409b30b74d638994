// One agent of a module, run from its start: its calls of Atomics and its accesses of shared memory are answered by
// who runs it. Nothing of the recorder is used.

/**
 * @typedef {object} Ask what an agent asks of shared memory, or how it ended
 * @property {"call" | "read" | "write" | "end" | "throw"} what
 * @property {string} [name] of a function of Atomics; "error": that throws
 * @property {number} [block]
 * @property {number} [byte]
 * @property {number} [length]
 * @property {string} [kind] of the array
 * @property {(number | bigint)[]} [values]
 * @property {boolean} [isTimed]
 * @property {Uint8Array} [bytes] that are written
 * @property {string} [text] of what was thrown
 */
/** @typedef {number | bigint | string | Uint8Array} Answer */
/** @typedef {(ask: Ask) => Answer} Asked */
/** @typedef {{ [Name in "default" | "init" | "check"]?: Function } & { setup?: any }} Exports */

export const ARRAYS = /** @type {Record<string, any>} */ ({
  Int8Array, Uint8Array, Int16Array, Uint16Array, Int32Array, Uint32Array, BigInt64Array, BigUint64Array,
});
const { Atomics: engine } = globalThis;

/** What is thrown to break an agent off. */
const BROKEN_OFF = Object.freeze({ isBrokenOff: true });

/** @param {string} source of a module without imports @returns {(...given: unknown[]) => Exports} makes it anew */
export function compiled(source) {
  const text = source.replace(/\bexport const (\w+) =/g, "const $1 = exports.$1 =")
    .replace(/\bexport default function (\w+)/, "exports.default = $1; function $1");
  return /** @type {any} */ (new Function("exports", "Atomics", ...Object.keys(ARRAYS),
    `"use strict";\n${text}\n;return exports;`));
}

/** The memory of one run, and what stands for Atomics and for the constructors of arrays in it. */
export class Stage {
  /** @param {number[]} lengths of the shared buffers @param {Asked} ask */
  constructor(lengths, ask) {
    this.buffers = lengths.map((length) => new SharedArrayBuffer(length));
    this.ask = ask;
    this.isAsked = false;
    /** @type {WeakMap<object, any>} arrays of the engine, by what stands for them */
    this.arrays = new WeakMap();
    this.given = [this.#atomics(), ...Object.values(ARRAYS).map((each) => this.#constructorOf(each))];
  }

  /** @param {any} array */
  #constructorOf(array) {
    return new Proxy(array, {
      construct: (target, given, made) => {
        const one = Reflect.construct(target, given, made);
        return this.buffers.includes(one.buffer) ? this.#watched(one) : one;
      },
    });
  }

  /** @param {any} array @param {number} at @returns {Pick<Ask, "block" | "byte" | "length" | "kind">} */
  #place(array, at) {
    const { BYTES_PER_ELEMENT: length, buffer, byteOffset, [Symbol.toStringTag]: kind } = array;
    return { block: this.buffers.indexOf(buffer), byte: byteOffset + at * length, length, kind };
  }

  /** @param {any} array @param {string | symbol} key @returns {number} an element's position; -1: it is none */
  static #position(array, key) {
    const at = typeof key === "string" && /^\d+$/.test(key) ? Number(key) : -1;
    return at < array.length ? at : -1;
  }

  /** @param {any} array of shared memory */
  #watched(array) {
    const bytes = new Uint8Array(array.buffer);
    const stand = new Proxy(array, {
      get: (_, key) => {
        const at = Stage.#position(array, key);
        if (at < 0) return Reflect.get(array, key, array);
        const place = this.#place(array, at);
        if (this.isAsked) bytes.set(/** @type {Uint8Array} */ (this.ask({ what: "read", ...place })), place.byte);
        return array[at];
      },
      set: (_, key, value) => {
        const at = Stage.#position(array, key);
        if (at < 0) return Reflect.set(array, key, value, array);
        array[at] = value;
        const { byte = 0, length = 0, ...place } = this.#place(array, at);
        const ask = { ...place, byte, length, bytes: bytes.slice(byte, byte + length) };
        if (this.isAsked) this.ask({ what: "write", ...ask });
        return true;
      },
    });
    this.arrays.set(stand, array);
    return stand;
  }

  #atomics() {
    const names = ["load", "store", "add", "sub", "and", "or", "xor", "exchange", "compareExchange", "wait", "notify"];
    const calls = names.map((name) => [name, (/** @type {any[]} */ ...given) => this.#call(name, given)]);
    return Object.fromEntries(calls);
  }

  /** @param {string} name @param {any[]} given */
  #call(name, [stand, at, ...given]) {
    const array = this.arrays.get(stand);
    if (array === undefined || !this.isAsked) return /** @type {any} */ (engine)[name](array ?? stand, at, ...given);
    const place = this.#checked(name, array, at);
    const whole = (/** @type {any} */ value) => (typeof value === "bigint" ? value : Math.trunc(value));
    const values = name === "notify" ? [Math.max(0, Math.trunc(given[0] ?? Infinity))]
      : given.slice(0, name === "wait" ? 1 : 2).map(whole);
    const isTimed = name === "wait" && given[1] !== undefined && given[1] < Infinity;
    return this.ask({ what: "call", name, ...place, values, isTimed });
  }

  /** @param {string} name @param {any} array @param {any} at @returns {Partial<Ask>} the place, if it is taken */
  #checked(name, array, at) {
    try {
      engine.load(array, at);
      if ((name === "wait" || name === "notify") && !/^(?:Int32|BigInt64)/.test(array[Symbol.toStringTag])) {
        throw new TypeError("[object Array] is not an int32 or BigInt64 typed array.");
      }
    } catch (error) {
      this.ask({ what: "call", name: "error" });
      throw error;
    }
    return this.#place(array, Number(at));
  }
}

/** @param {unknown} thrown */
const textOf = (thrown) => (thrown instanceof Error ? `${thrown.name}: ${thrown.message}` : String(thrown));

/**
 * Runs an agent from its start to where `ask` breaks it off, or to its end.
 * @param {(...given: unknown[]) => Exports} make
 * @param {number[]} lengths of the shared buffers
 * @param {{ agent: number, agents: number }} of the agent
 * @param {(ask: Ask) => Answer | undefined} ask without an answer the agent is broken off
 * @returns {Ask | undefined} how it ended
 */
export function ran(make, lengths, { agent, agents }, ask) {
  let isBroken = false;
  const stage = new Stage(lengths, (asked) => {
    const answer = isBroken ? undefined : ask(asked);
    if (answer !== undefined) return answer;
    isBroken = true;
    throw BROKEN_OFF;
  });
  const exports = make({}, ...stage.given);
  stage.isAsked = true;
  try {
    exports.default?.({ buffers: [...stage.buffers], agent, agents, args: [] });
  } catch (thrown) {
    return isBroken ? undefined : { what: "throw", text: textOf(thrown) };
  }
  return isBroken ? undefined : { what: "end" };
}

/**
 * @param {(...given: unknown[]) => Exports} make
 * @returns {Exports} of a module that is made for `setup`, `init` and `check`
 */
export const exportsOf = (make) => make({}, Atomics, ...Object.values(ARRAYS));

/**
 * @param {Exports} exports
 * @param {Uint8Array[]} memory at the end
 * @param {number} agents
 * @returns {string | undefined} what `check` finds
 */
export function foundByCheck({ check }, memory, agents) {
  const buffers = memory.map((bytes) => {
    const buffer = new SharedArrayBuffer(bytes.length);
    new Uint8Array(buffer).set(bytes);
    return buffer;
  });
  try {
    const found = check?.(buffers, { agents, args: [] });
    if (found instanceof Error) return `returned ${textOf(found)}`;
    return found === false ? "returned false" : undefined;
  } catch (thrown) {
    return `threw ${textOf(thrown)}`;
  }
}
