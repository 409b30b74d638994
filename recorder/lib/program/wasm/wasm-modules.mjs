// WebAssembly of a program's thread. A module with shared memory is translated, so that its accesses are seen. Any
// other one is the engine's own.

import { createHash } from "node:crypto";
import { replace, replaceGetter } from "../../agent/ordinary/patch.mjs";
import { FIRST_MORE } from "../../memory/more-blocks.mjs";
import {
  apply, construct, create, freeze, mapGet, mapSet, ownKeys, proxyOf, put, uncurried, weakGet, weakSet,
} from "../../primordials.mjs";
import { Buffers, MOST_GROWTH, bufferIn } from "../moves/buffers.mjs";
import { WasmAccesses } from "./wasm-accesses.mjs";
import { ByteReader } from "./bytes.mjs";
import { glueBytes } from "./glue.mjs";
import { PAGE } from "./slots.mjs";
import { DATA, OWN, hasSharedMemory, translated } from "./translate.mjs";

const {
  ArrayBuffer: EngineBuffer, Map: EngineMap, RangeError: EngineRangeError, Uint8Array: Bytes,
  WeakMap: EngineWeakMap,
} = globalThis;
const { Instance: EngineInstance, Memory: EngineMemory, Module: EngineModule } = /** @type {any} */ (WebAssembly);
const { customSections, exports: exportsOf } = EngineModule;
const { isView } = EngineBuffer;
const growEngine = uncurried(EngineMemory.prototype.grow);

/** @type {readonly unknown[]} */
const OWN_NAMES = freeze(Object.values(OWN));

/**
 * @typedef {object} WasmContext what WebAssembly needs of its thread
 * @property {import("../moves/buffers.mjs").Buffers} buffers
 * @property {import("../moves/moves.mjs").Moves} moves
 * @property {any} atomics those of the run
 * @property {import("./wasm-accesses.mjs").WasmAccessContext["seen"]} seen
 * @property {() => string | undefined} here where the program's code is
 * @property {(why: string) => never} refuse ends the run
 * @property {() => boolean} isPlaying
 * @property {boolean} isRelaxed whether plain aligned accesses are relaxed ones
 */

/** @param {any} source as the engine takes a module @returns {Uint8Array | undefined} a copy of its bytes */
function bytesOf(source) {
  if (isView(source)) return new Bytes(source.buffer, source.byteOffset, source.byteLength).slice();
  const isBuffer = source instanceof EngineBuffer || Buffers.isShared(source);
  return isBuffer ? new Bytes(source).slice() : undefined;
}

/** @type {Map<string, Uint8Array>} what was translated in this thread, by the digests of modules */
const done = new EngineMap();

/** @param {Uint8Array} bytes @returns {Uint8Array} of the translated module */
function translatedOnce(bytes) {
  const digest = createHash("sha256").update(bytes).digest("hex");
  const found = mapGet(done, digest) ?? translated(bytes);
  mapSet(done, digest, found);
  return found;
}

/** @param {WebAssembly.Module} module @returns {boolean} whether it was translated, perhaps by another thread */
const isTranslated = (module) =>
  exportsOf(module).some((/** @type {{ name: string }} */ { name }) => name === OWN.TABLE);

/** @type {Record<string, WebAssembly.Module>} the modules between, by whether plain accesses are relaxed ones */
const glues = {};

/** @param {boolean} isRelaxed */
function glueOf(isRelaxed) {
  const key = String(isRelaxed);
  glues[key] ??= new EngineModule(/** @type {any} */ (glueBytes(isRelaxed)));
  return glues[key];
}

class Translating {
  /** @type {WeakMap<object, WasmAccesses>} those to each memory */
  #accesses = new EngineWeakMap();

  /** @type {WasmAccesses[]} those that were made, of which the first ones are used in this run */
  #all = [];

  #used = 0;

  /** @type {WeakMap<object, object>} what each translated instance exports, without what is the recorder's */
  exported = new EngineWeakMap();

  /** @param {WasmContext} thread */
  constructor(thread) {
    this.thread = thread;
    const { atomics, seen, buffers, isRelaxed } = thread;
    /** @type {import("./wasm-accesses.mjs").WasmAccessContext} */
    this.context = {
      atomics, seen, buffers, isRelaxed,
      grow: (memory, pages) => this.tryToGrow(memory, pages),
      ask: (memory) => this.ask(memory),
    };
  }

  /** @param {any} memory that the program has @param {number} most how many pages it can have */
  made(memory, most) {
    const { buffers, here } = this.thread;
    const buffer = bufferIn(memory);
    if (!Buffers.isShared(buffer) || buffers.numberOf(buffer) >= 0) return;
    buffers.made(buffer, here(), most * PAGE);
    buffers.bufferOf(memory);
  }

  /** @param {any} memory @returns {number} its block if it can grow, else -1 */
  #growing(memory) {
    const { buffers: { blocks }, buffers } = this.thread;
    const block = buffers.blockOf(buffers.numberOf(buffers.bufferOf(memory)));
    return block >= FIRST_MORE && blocks.more.grows(block) ? block : -1;
  }

  /** @param {any} source @returns {any} what the engine is to compile in its place */
  source(source) {
    const { isPlaying, refuse } = this.thread;
    const bytes = isPlaying() ? bytesOf(source) : undefined;
    if (bytes === undefined || !hasSharedMemory(bytes)) return source;
    // The engine says what is wrong with it.
    const engine = new EngineModule(/** @type {any} */ (bytes));
    if (isTranslated(engine)) return bytes;
    try {
      return translatedOnce(bytes);
    } catch (problem) {
      const what = problem instanceof SyntaxError ? problem.message : String(problem);
      return refuse(`compiled a module of WebAssembly that the recorder can't translate: it has ${what}`);
    }
  }

  /**
   * Makes an instance of a translated module ready, and starts it.
   * @param {any} instance
   * @param {WebAssembly.Module} module
   */
  complete(instance, module) {
    const { exports } = instance;
    const memory = exports[OWN.MEMORY];
    const reader = new ByteReader(new Bytes(customSections(module, DATA)[0]));
    this.made(memory, reader.number());
    const access = this.#accessesTo(memory);
    for (let left = reader.number(); left > 0; left -= 1) access.note(reader.number(), reader.number(), true);
    new EngineInstance(glueOf(this.thread.isRelaxed), {
      recorder: /** @type {any} */ (access.functions), module: { table: exports[OWN.TABLE] },
    });
    const own = create(null);
    for (const name of ownKeys(exports)) if (!OWN_NAMES.includes(name)) own[name] = exports[name];
    weakSet(this.exported, instance, freeze(own));
    exports[OWN.START]?.();
  }

  /**
   * A memory's buffer as it is now. Looking at it is a move, if several threads reach it and it can grow.
   * @param {any} memory
   * @returns {SharedArrayBuffer}
   */
  ask(memory) {
    const block = this.#growing(memory);
    if (block >= 0 && this.thread.isPlaying()) this.thread.moves.touchLength(block, this.ask);
    return this.thread.buffers.bufferOf(memory);
  }

  /** @param {any} memory @param {number} pages @returns {number} how many it had; -1: it can't get so long */
  tryToGrow(memory, pages) {
    try {
      return this.grow(memory, pages);
    } catch (problem) {
      if (problem instanceof EngineRangeError) return -1;
      throw problem;
    }
  }

  /**
   * Makes a shared memory longer.
   * @param {any} memory
   * @param {any} pages
   * @returns {number} how many it had
   * @throws {RangeError} as the engine does
   */
  grow(memory, pages) {
    const { buffers, moves, refuse } = this.thread;
    const block = this.#growing(memory);
    if (block >= 0) moves.touchLength(block, this.grow, () => true);
    const before = growEngine(memory, pages);
    const { byteLength } = buffers.bufferOf(memory);
    if (block < 0) return before;
    if (byteLength > buffers.blocks.more.mostLength(block)) refuse("made a shared WebAssembly.Memory longer by "
      + `more than ${MOST_GROWTH} bytes, which isn't simulated`);
    buffers.blocks.grew(block);
    return before;
  }

  /** @param {object} memory */
  #accessesTo(memory) {
    const known = weakGet(this.#accesses, memory);
    if (known !== undefined) return known;
    this.#all[this.#used] ??= new WasmAccesses(this.context);
    const next = this.#all[this.#used];
    this.#used += 1;
    next.begin(memory);
    weakSet(this.#accesses, memory, next);
    return next;
  }

  /** Nothing of a run is left. */
  clear() {
    this.#used = 0;
  }
}

/**
 * A class of WebAssembly in the place of the engine's.
 * @param {any} engine
 * @param {(given: any[], asked: Function) => any} make
 */
function putClass(engine, make) {
  /** @type {any} */
  const StandIn = proxyOf(engine, {
    construct: (target, given, asked) => make(given, asked === StandIn ? target : asked),
  });
  put(engine.prototype, "constructor", StandIn);
  put(WebAssembly, engine.name, StandIn);
}

/**
 * Puts WebAssembly with shared memory in the place of the engine's. Call it before anything else replaces its
 * functions.
 * @param {WasmContext} thread
 * @returns {{ clear: () => void }} to be cleared when the thread's part in a run is over
 */
export function installWebAssembly(thread) {
  const translating = new Translating(thread);
  putClass(EngineMemory, (given, asked) => {
    const memory = construct(EngineMemory, given, asked);
    if (Buffers.isShared(bufferIn(memory))) translating.made(memory, given[0].maximum);
    return memory;
  });
  putClass(EngineModule, (given, asked) => {
    given[0] = translating.source(given[0]);
    return construct(EngineModule, given, asked);
  });
  putClass(EngineInstance, (given, asked) => {
    const instance = construct(EngineInstance, given, asked);
    if (isTranslated(given[0])) translating.complete(instance, given[0]);
    return instance;
  });
  replace(EngineModule, "exports", (engine) => (/** @type {any} */ module) =>
    apply(engine, undefined, [module]).filter((/** @type {{ name: string }} */ { name }) => !OWN_NAMES.includes(name)));
  replaceGetter(EngineInstance.prototype, "exports", (engine) => ({
    get asked() {
      return weakGet(translating.exported, this) ?? apply(engine, this, []);
    },
  }));
  replace(EngineMemory.prototype, "grow", (engine) => ({
    /** @param {any} pages */
    grow(pages) {
      const memory = /** @type {any} */ (this);
      const isShared = memory instanceof EngineMemory && Buffers.isShared(bufferIn(memory));
      return isShared ? translating.grow(memory, pages) : apply(engine, memory, [pages]);
    },
  }).grow);
  replaceGetter(EngineMemory.prototype, "buffer", (engine) => ({
    get asked() {
      const buffer = apply(engine, this, []);
      return Buffers.isShared(buffer) ? translating.ask(this) : buffer;
    },
  }));
  return translating;
}
