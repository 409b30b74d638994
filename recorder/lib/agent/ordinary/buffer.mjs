// Node's Buffer. A Buffer on a recorded buffer is watched as other arrays are; of its methods that are native code of
// node's, what they read and write is reported.

import { KINDS } from "../../../script/kinds.mjs";
import { apply, bufferOf, lengthOf, offsetOf, put, setPrototypeOf, tagOf, uncurried } from "../../primordials.mjs";
import { blockNumber, refused, watching } from "./context.mjs";
import { wrappedArray } from "./watched-elements.mjs";
import { constructing, copying, looking, madePrivate } from "./guards.mjs";
import { wholeOf } from "./argument-conversions.mjs";
import { methodOf, replace, replaceEach } from "./patch.mjs";
import { privateView } from "./reach.mjs";
import { standIns } from "./species.mjs";
import { ENGINE, askedLength, report, reportAll, unwrapped, watchedOf } from "./watched.mjs";

const EngineBytes = Uint8Array;
const EngineBuffer = Buffer;
const { prototype: buffers } = EngineBuffer;
const { alloc } = EngineBuffer;
const { trunc } = Math;
const custom = Symbol.for("nodejs.util.inspect.custom");
const setBytes = uncurried(EngineBytes.prototype.set);

/** @typedef {import("./patch.mjs").StandInMaker} StandInMaker */
/** @typedef {import("./watched.mjs").Watched} Watched */

const WORDS = ["ascii", "base64", "base64url", "latin1", "hex", "ucs2", "utf8"];

/** @param {unknown} value */
const whole = (value) => (value === undefined ? 0 : wholeOf(value));

/** @param {number} count @returns {Buffer} a private Buffer of as many bytes, each zero */
const zeros = (count) => apply(alloc, EngineBuffer, [count]);

/**
 * The bytes of a stretch of the engine's array, as a view.
 * @param {object} real
 * @param {number} from
 * @param {number} to
 */
const bytesOf = (real, from, to) => new EngineBytes(bufferOf(real), offsetOf(real) + from, to - from);

/**
 * A private Buffer with a stretch of a watched one, reported as read.
 * @param {Watched} watched
 * @param {number} from
 * @param {number} to
 */
function copied(watched, from, to) {
  const copy = zeros(to - from);
  report(watched, from, to, false);
  setBytes(copy, bytesOf(watched.real, from, to));
  return copy;
}

/**
 * @callback BytesMethod a method of a watched Buffer
 * @param {Function} engine the engine's own
 * @param {Watched} watched
 * @param {any[]} given
 * @param {object} self the receiver, as agents hold it
 * @returns {unknown}
 */

/**
 * A method that does something else if the receiver is watched. Such methods take any array's bytes; here its elements
 * have to be bytes.
 * @param {Function} engine
 * @param {BytesMethod} method
 * @param {Function} [otherwise] what is called if it isn't
 */
const forBytes = (engine, method, otherwise = engine) => methodOf((self, given) => {
  const watched = watchedOf(self);
  if (watched === undefined) return apply(otherwise, self, given);
  if (watched.size > 1) refused(`Buffer's ${engine.name} was called for an array of larger elements`);
  return method(engine, watched, given, self);
}, engine);

/**
 * Writes a stretch of a private Buffer into a watched one, at the same place; reported as written.
 * @param {Watched} watched
 * @param {Buffer} bytes
 * @param {number} from
 * @param {number} to
 */
function written(watched, bytes, from, to) {
  if (from >= to) return;
  report(watched, from, to, true);
  setBytes(watched.real, bytesOf(bytes, from, to), from);
}

/** @type {BytesMethod} `toString`, whose range may be anything */
function textOf(engine, watched, given) {
  const { length } = watched;
  const encoding = given[0];
  const start = given[1];
  const end = given[2];
  if (given.length === 0) return apply(engine, copied(watched, 0, length), []);
  if (start >= length) return "";
  const from = start <= 0 ? 0 : trunc(start) || 0;
  const to = end === undefined || end > length ? length : trunc(end) || 0;
  return to <= from ? "" : apply(engine, copied(watched, from, to), [encoding]);
}

/** @type {BytesMethod} the methods that make a text of a stretch */
function textSlice(engine, watched, given) {
  const { length } = watched;
  const from = whole(given[0]);
  const to = given[1] === undefined ? length : wholeOf(given[1]);
  // If the range is wrong, node says so before it reads.
  if (from < 0 || to > length || from > to) return apply(engine, zeros(length), given);
  return apply(engine, copied(watched, from, to), []);
}

/** @type {BytesMethod} those that write a text: a try in a private Buffer shows how many bytes they will write */
function textWrite(engine, watched, given) {
  const bytes = zeros(watched.length);
  const count = apply(engine, bytes, given);
  const from = typeof given[1] === "string" ? 0 : whole(given[1]);
  written(watched, bytes, from, from + count);
  return count;
}

/** @type {BytesMethod} */
function filled(engine, watched, given, self) {
  const bytes = zeros(watched.length);
  apply(engine, bytes, madePrivate(given));
  const from = typeof given[1] === "number" ? given[1] >>> 0 : 0;
  const to = typeof given[1] === "number" && typeof given[2] === "number" ? given[2] >>> 0 : watched.length;
  written(watched, bytes, from, to);
  return self;
}

/** @param {unknown} value @returns {any} an array as long as another one, to try in it what a method would do */
const likeness = (value) => {
  const watched = watchedOf(value);
  if (watched === undefined) return tagOf(value) === "Uint8Array" ? new EngineBytes(lengthOf(value)) : value;
  return new ENGINE[watched.kind](watched.length);
};

/**
 * Reports that bytes are read or written, of an array whose elements may be larger.
 * @param {Watched} watched
 * @param {number} from
 * @param {number} to
 * @param {boolean} writes
 */
function reportBytes({ place, offset }, from, to, writes) {
  if (from < to) watching.seen(place, offset + from, offset + to, writes);
}

/**
 * `copy`, if one of the two is watched.
 * @param {Function} engine
 * @param {unknown} source
 * @param {unknown} target
 * @param {unknown} targetStart
 * @param {unknown} sourceStart
 * @param {unknown} sourceEnd
 */
function copiedTo(engine, source, target, targetStart, sourceStart, sourceEnd) {
  const to = whole(targetStart);
  const from = whole(sourceStart);
  const end = sourceEnd === undefined ? undefined : wholeOf(sourceEnd);
  const count = apply(engine, likeness(source), [likeness(target), to, from, end]);
  const read = watchedOf(source);
  const write = watchedOf(target);
  if (read !== undefined) reportBytes(read, from, from + count, false);
  if (write !== undefined) reportBytes(write, to, to + count, true);
  return apply(engine, unwrapped(source), [unwrapped(target), to, from, end]);
}

/** @type {StandInMaker} a method that only reads, of its receiver and of what it is given */
const reading = (engine) => methodOf((self, given) => {
  if (watchedOf(self) === undefined) return apply(engine, self, madePrivate(given));
  /** @type {unknown[]} */
  const all = [self];
  for (let at = 0; at < given.length; at += 1) all[at + 1] = given[at];
  const made = madePrivate(all);
  for (let at = 0; at < given.length; at += 1) given[at] = made[at + 1];
  return apply(engine, made[0], given);
}, engine);

/** @type {StandInMaker} a method that returns another Buffer on the same memory */
const sharingSlice = (engine) => methodOf((self, given) => {
  const watched = watchedOf(self);
  if (watched === undefined) return apply(engine, self, given);
  askedLength(watched);
  const made = wrappedArray(apply(engine, watched.real, given));
  const part = watchedOf(made);
  if (part !== undefined) part.buffer = watched.buffer;
  return made;
}, engine);

/** @type {(size: number) => (engine: Function) => Function} */
const swapping = (size) => (engine) => forBytes(engine, (_engine, watched, _given, self) => {
  if (watched.length % size !== 0) return apply(engine, zeros(watched.length), []);
  reportAll(watched, false);
  reportAll(watched, true);
  apply(engine, watched.real, []);
  return self;
});

/** @type {BytesMethod} how node shows a Buffer: that of a private copy */
const shown = (engine, watched, given) => apply(engine, privateView(watched), given);

/** @type {StandInMaker} */
const copyingTo = (engine) => methodOf((self, given) => {
  if (watchedOf(self) === undefined && watchedOf(given[0]) === undefined) return apply(engine, self, given);
  return copiedTo(engine, self, given[0], given[1], given[2], given[3]);
}, engine);

/** @type {StandInMaker} `fill` of a private Buffer may be given a watched one */
const filling = (engine) => forBytes(engine, filled, copying(engine));

function replaceMethods() {
  for (const word of WORDS) {
    replace(buffers, `${word}Slice`, (engine) => forBytes(engine, textSlice));
    replace(buffers, `${word}Write`, (engine) => forBytes(engine, textWrite));
  }
  replace(buffers, "write", (engine) => forBytes(engine, textWrite));
  replace(buffers, "toString", (engine) => forBytes(engine, textOf));
  put(buffers, "toLocaleString", buffers.toString);
  replaceEach(buffers, ["equals", "compare", "indexOf", "lastIndexOf", "includes", "toJSON"], reading);
  replaceEach(buffers, ["subarray", "slice"], sharingSlice);
  replace(buffers, "swap16", swapping(2));
  replace(buffers, "swap32", swapping(4));
  replace(buffers, "swap64", swapping(8));
  replaceEach(buffers, ["inspect", custom], (engine) => forBytes(engine, shown));
  replace(buffers, "fill", filling);
  replace(buffers, "copy", copyingTo);
}

/** @param {typeof import("node:buffer").default} module */
function replaceStatics(module) {
  replace(EngineBuffer, "from", (engine) => methodOf((self, given) =>
    wrappedArray(apply(engine, self, blockNumber(given[0]) < 0 ? madePrivate(given) : given)), engine));
  replaceEach(EngineBuffer, ["alloc", "compare", "concat", "copyBytesFrom"], copying);
  replace(EngineBuffer, "byteLength", looking);
  replaceEach(module, ["transcode", "isUtf8", "isAscii"], copying);
  setPrototypeOf(EngineBuffer, standIns[KINDS.indexOf("Uint8")]);
}

/**
 * Patches node's Buffer.
 * @param {typeof import("node:buffer").default} module
 */
export function watchNodeBuffer(module) {
  replaceMethods();
  replaceStatics(module);
  for (const name of /** @type {const} */ (["Blob", "File"])) {
    const Engine = module[name];
    if (typeof Engine !== "function") continue;
    const StandIn = constructing(Engine, madePrivate);
    put(module, name, StandIn);
    if (name in globalThis) put(globalThis, name, StandIn);
  }
}
