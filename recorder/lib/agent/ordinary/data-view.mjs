// The DataView of a watched realm. One on a recorded buffer is an object without elements. Its methods are the only way
// to its bytes, so each of them reports what it reads or writes.

import {
  apply, construct, copyProperty, create, getPrototypeOf, likeEngine, ownKeys, put,
  uncurried, viewBufferOf, viewLengthOf, viewOffsetOf,
} from "../../primordials.mjs";
import { memoryNumber, refused } from "./context.mjs";
import { byteIndexOf, elementOf } from "./argument-conversions.mjs";
import { methodOf, replace, replaceGetter } from "./patch.mjs";
import { askedLength, registerView, report, viewOn, watchedView } from "./watched.mjs";

const { TypeError: EngineTypeError, RangeError: EngineRangeError } = globalThis;
const EngineDataView = DataView;
const { prototype: views } = EngineDataView;

const OUTSIDE = "Offset is outside the bounds of the DataView";

/** @type {Record<string, number>} how many bytes each accessor's value has; an engine may lack one */
const SIZES = {
  Int8: 1, Uint8: 1, Int16: 2, Uint16: 2, Int32: 4, Uint32: 4, Float16: 2, Float32: 4, Float64: 8, BigInt64: 8,
  BigUint64: 8,
};

/**
 * What agents get for a DataView of the engine.
 * @param {DataView} real
 * @param {number} block of its buffer, or -1
 */
export function wrappedView(real, block) {
  if (block < 0) return real;
  const watched = viewOn(real, block);
  const standIn = create(getPrototypeOf(real));
  registerView(watched, standIn);
  return standIn;
}

/**
 * Where the value of a size begins that is asked for; it must be within the view.
 * @param {{ length: number }} watched
 * @param {number} at
 * @param {number} size
 */
function placeOf({ length }, at, size) {
  if (at + size > length) throw new EngineRangeError(OUTSIDE);
  return at;
}

/** @param {Function} engine @param {number} size */
const getterOf = (engine, size) => {
  const read = uncurried(engine);
  return {
    /** @param {unknown} offset @param {unknown} isLittle */
    method(offset, isLittle) {
      const watched = watchedView(this);
      if (watched === undefined) return read(this, offset, isLittle);
      const at = placeOf(watched, byteIndexOf(offset, OUTSIDE), size);
      report(watched, at, at + size, false);
      return read(watched.real, at, isLittle);
    },
  }.method;
};

/** @param {Function} engine @param {number} size @param {boolean} big */
const setterOf = (engine, size, big) => {
  const write = uncurried(engine);
  return {
    /** @param {unknown} offset @param {unknown} value @param {unknown} isLittle */
    method(offset, value, isLittle) {
      const watched = watchedView(this);
      if (watched === undefined) return write(this, offset, value, isLittle);
      const index = byteIndexOf(offset, OUTSIDE);
      const element = elementOf(big, value);
      const at = placeOf(watched, index, size);
      report(watched, at, at + size, true);
      return write(watched.real, at, element, isLittle);
    },
  }.method;
};

function replaceAccessors() {
  for (const [name, size] of Object.entries(SIZES)) {
    replace(views, `get${name}`, (engine) => getterOf(engine, size));
    replace(views, `set${name}`, (engine) => setterOf(engine, size, name.startsWith("Big")));
  }
}

/**
 * The getter of what a view has.
 * @param {(real: object) => unknown} slot
 * @param {"buffer" | "offset" | "length"} member its name in what is known about a watched one
 */
const slotGetter = (slot, member) => () => ({
  get asked() {
    const watched = watchedView(this);
    if (watched === undefined) return slot(this);
    return member === "length" ? askedLength(watched) : watched[member];
  },
});

function replaceSlots() {
  replaceGetter(views, "buffer", slotGetter(viewBufferOf, "buffer"));
  replaceGetter(views, "byteOffset", slotGetter(viewOffsetOf, "offset"));
  replaceGetter(views, "byteLength", slotGetter(viewLengthOf, "length"));
}

/** Accessors that this engine has besides. */
function refuseOthers() {
  for (const name of ownKeys(views)) {
    if (typeof name !== "string" || !/^[gs]et/.test(name) || SIZES[name.slice(3)] !== undefined) continue;
    replace(views, name, (engine) => methodOf((self, given) => {
      if (watchedView(self) !== undefined) refused(`${engine.name} of a DataView was called`);
      return apply(engine, self, given);
    }, engine));
  }
}

/** Patches the DataView of this realm. */
export function watchDataView() {
  replaceAccessors();
  replaceSlots();
  refuseOthers();
  /** @param {unknown} buffer @param {unknown} offset @param {unknown} length */
  const StandIn = function (buffer, offset, length) {
    if (new.target === undefined) throw new EngineTypeError("Constructor DataView requires 'new'");
    const target = new.target === StandIn ? EngineDataView : new.target;
    return wrappedView(construct(EngineDataView, [buffer, offset, length], target), memoryNumber(buffer));
  };
  likeEngine(StandIn, EngineDataView);
  copyProperty(StandIn, EngineDataView, "prototype");
  put(views, "constructor", StandIn);
  put(globalThis, "DataView", StandIn);
}
