// What translated code calls for its accesses to a shared memory. Each is checked as the engine does it. A plain access
// is seen before the engine makes it. An atomic one is made here, by the Atomics of the run.

import { KINDS, SIZES } from "../../../script/kinds.mjs";
import { compiled } from "../../agent/frames.mjs";
import { DATA_VIEW } from "../../agent/ordinary/watched.mjs";
import { sharedLengthOf } from "../../primordials.mjs";
import { doesOtherwise } from "../../processes/node-versions.mjs";
import { atomicFunctions } from "./wasm-atomics.mjs";
import { PAGE } from "./slots.mjs";

const {
  BigInt: EngineBigInt, BigInt64Array, BigUint64Array, Int32Array, Number: EngineNumber, TypeError: EngineTypeError,
  Uint8Array, Uint16Array, Uint32Array,
} = globalThis;
const { asUintN } = EngineBigInt;
const { RuntimeError: EngineTrap } = /** @type {any} */ (WebAssembly);

/** How a plain access is named, by how many bytes it takes; elsewhere it is one of a DataView. */
const KIND_NAMES = Object.freeze({ 1: "Uint8", 2: "Uint16", 4: "Int32", 8: "BigInt64" });

/** @type {Readonly<Record<string, number>>} what a wait returns, by what Atomics.wait returns */
const WORDS = Object.freeze({ "ok": 0, "not-equal": 1, "timed-out": 2 });

const ALIGNS_FIRST = doesOtherwise("wasmAlignsFirst");

/** @param {number} at @param {number} size of an atomic access that begins there */
function demandAligned(at, size) {
  if (at % size !== 0) throw new EngineTrap("operation does not support unaligned accesses");
}

/** @typedef {import("../../agent/ordinary/context.mjs").WatchedPlace} WatchedPlace */

/**
 * @typedef {object} WasmAccessContext what accesses need of their thread
 * @property {any} atomics those of the run
 * @property {import("../../agent/ordinary/context.mjs").Watching["seen"]} seen
 * @property {import("../moves/buffers.mjs").Buffers} buffers
 * @property {(memory: any, pages: number) => number} grow makes a memory longer, and returns how many pages it had
 * @property {(memory: any) => SharedArrayBuffer} ask returns a memory's buffer; that is a move, if the memory can grow
 * @property {boolean} isRelaxed whether plain aligned accesses are relaxed ones
 */

/** The accesses to a memory. They can be used again for another one, since making their functions takes time. */
export class WasmAccesses {
  /** @type {Record<number, any>} views, by how many bytes an element takes */
  views = {};

  /** @type {Record<number, WatchedPlace>} the same for plain accesses; 0: one that isn't aligned */
  places = {};

  length = 0;

  /** @type {any} */
  memory = undefined;

  /** @param {WasmAccessContext} context */
  constructor(context) {
    this.context = context;
    /** What the recorder gives to the module between. */
    this.functions = { ...this.#plain(), ...this.#waiting(), ...atomicFunctions(this) };
  }

  /** @param {object} memory whose accesses these are from now on */
  begin(memory) {
    this.memory = memory;
    this.renew();
  }

  /** Takes the memory's buffer as it is now. @param {SharedArrayBuffer} [buffer] */
  renew(buffer = this.context.buffers.bufferOf(this.memory)) {
    this.length = sharedLengthOf(buffer);
    this.views = {
      1: new Uint8Array(buffer), 2: new Uint16Array(buffer), 4: new Uint32Array(buffer), 8: new BigUint64Array(buffer),
    };
    this.words = new Int32Array(buffer);
    this.longs = new BigInt64Array(buffer);
    const block = this.context.buffers.numberOf(buffer);
    this.places = { 0: { block, kind: DATA_VIEW, offset: 0, length: this.length } };
    for (const [size, named] of Object.entries(KIND_NAMES)) {
      const kind = KINDS.indexOf(named);
      this.places[EngineNumber(size)] = { block, kind, offset: 0, length: this.length / SIZES[kind] };
    }
  }

  /**
   * Where an access begins.
   * @param {number} address
   * @param {number} offset that is added to it
   * @param {number} size
   * @param {number} where its instruction is in the module
   * @returns {number}
   */
  at(address, offset, size, where) {
    compiled.at = where;
    const at = (address >>> 0) + (offset >>> 0);
    if (at + size > this.length) this.#reach(at + size);
    return at;
  }

  /**
   * Which element an atomic access uses.
   * @param {number} address
   * @param {number} offset
   * @param {number} size
   * @param {number} where
   * @returns {number}
   */
  aligned(address, offset, size, where) {
    if (ALIGNS_FIRST) {
      compiled.at = where;
      demandAligned((address >>> 0) + (offset >>> 0), size);
    }
    const at = this.at(address, offset, size, where);
    demandAligned(at, size);
    return at / size;
  }

  /**
   * Notes a plain access that is about to be made, or that was made just now and nothing since.
   * @param {number} at
   * @param {number} size
   * @param {boolean} writes
   */
  note(at, size, writes) {
    const place = this.places[at % size === 0 ? size : 0] ?? this.places[0];
    if (size > 0) this.context.seen(place, at, at + size, writes);
  }

  /** @param {number} end of an access: another thread may have made the memory longer */
  #reach(end) {
    this.renew(this.context.ask(this.memory));
    if (end > this.length) throw new EngineTrap("memory access out of bounds");
  }

  /** @param {number} at @param {number} size @returns {boolean} whether a plain access is a relaxed one */
  #isRelaxed(at, size) {
    return this.context.isRelaxed && size <= 8 && at % size === 0;
  }

  /** @param {number} at @param {number} size */
  #read(at, size) {
    if (this.#isRelaxed(at, size)) this.context.atomics.load(this.views[size], at / size);
    else this.note(at, size, false);
  }

  /** @param {number} at @param {number} size @param {bigint} bits that are written */
  #store(at, size, bits) {
    if (!this.#isRelaxed(at, size)) return this.note(at, size, true);
    const value = asUintN(8 * size, bits);
    this.context.atomics.store(this.views[size], at / size, size === 8 ? value : EngineNumber(value));
  }

  /** @returns {Record<string, (...given: any[]) => unknown>} */
  #plain() {
    const { grow, ask } = this.context;
    return {
      read: (address, offset, size, where) => {
        this.#read(this.at(address, offset, size, where), size);
        return address;
      },
      write: (address, offset, size, where) => this.note(this.at(address, offset, size, where), size, true),
      store: (address, offset, size, where, bits) => this.#store(this.at(address, offset, size, where), size, bits),
      filled: (to, size, where) => this.note(this.at(to, 0, size >>> 0, where), size >>> 0, true),
      copied: (to, from, size, where) => {
        const [first, second] = [from, to].map((address) => this.at(address, 0, size >>> 0, where));
        this.note(first, size >>> 0, false);
        this.note(second, size >>> 0, true);
      },
      grow: (pages, where) => {
        compiled.at = where;
        return grow(this.memory, pages >>> 0);
      },
      size: (where) => {
        compiled.at = where;
        return sharedLengthOf(ask(this.memory)) / PAGE;
      },
    };
  }

  /** @returns {Record<string, (...given: any[]) => unknown>} */
  #waiting() {
    const { atomics } = this.context;
    return {
      // The count has no sign: -1 wakes all.
      notify: (address, count, offset, where) =>
        atomics.notify(this.words, this.aligned(address, offset, 4, where), count >>> 0),
      "wait i4": (address, value, time, offset, where) =>
        this.#wait(this.words, this.aligned(address, offset, 4, where), value, time),
      "wait l8": (address, value, time, offset, where) =>
        this.#wait(this.longs, this.aligned(address, offset, 8, where), value, time),
    };
  }

  /**
   * @param {any} view
   * @param {number} index
   * @param {number | bigint} value that is expected
   * @param {bigint} nanoseconds for which it may sleep; negative: without an end
   */
  #wait(view, index, value, nanoseconds) {
    try {
      const time = nanoseconds < 0n ? Infinity : EngineNumber(nanoseconds) / 1e6;
      return WORDS[this.context.atomics.wait(view, index, value, time)];
    } catch (problem) {
      // A page can't sleep. Then the engine traps.
      throw problem instanceof EngineTypeError ? new EngineTrap(problem.message) : problem;
    }
  }
}
