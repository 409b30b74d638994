// Calls of Atomics whose arguments the language converts. An agent makes them, and so does the test, with the engine's
// own Atomics: both must find the same.

import { writeFileSync } from "node:fs";

/** Arguments by a name. Each is made anew for a call, and logs where its own code runs. */
const ARGUMENTS = {
  "undefined": () => undefined,
  "null": () => null,
  "true": () => true,
  "false": () => false,
  "3": () => 3,
  "-0": () => -0,
  "-1": () => -1,
  "99": () => 99,
  "0.5": () => 0.5,
  "-0.5": () => -0.5,
  "-1.5": () => -1.5,
  "251.4": () => 251.4,
  "NaN": () => NaN,
  "Infinity": () => Infinity,
  "-Infinity": () => -Infinity,
  "2 ** 53": () => 2 ** 53,
  "-(2 ** 53) - 2": () => -(2 ** 53) - 2,
  "2 ** 60 + 2 ** 20": () => 2 ** 60 + 2 ** 20,
  "1e300": () => 1e300,
  "'-9007199254740995'": () => "-9007199254740995",
  "2n ** 127n + 5n": () => 2n ** 127n + 5n,
  "-(2n ** 200n) - 3n": () => -(2n ** 200n) - 3n,
  "5n": () => 5n,
  "-1n": () => -1n,
  "2n ** 64n": () => 2n ** 64n,
  "'5'": () => "5",
  "''": () => "",
  "' 12 '": () => " 12 ",
  "'0x10'": () => "0x10",
  "'-7.9'": () => "-7.9",
  "'1e1'": () => "1e1",
  "'ten'": () => "ten",
  "Symbol()": () => Symbol("mine"),
  "a function": () => () => 1,
  "an object": () => ({}),
  "[]": () => [],
  "[4]": () => [4],
  "[1, 2]": () => [1, 2],
  "Object(6n)": () => Object(6n),
  "Object(6)": () => Object(6),
  "Object(Symbol())": () => Object(Symbol("mine")),
  "a date": () => new Date(5),
  "no prototype": () => Object.create(null),
  "valueOf": (log) => ({ valueOf: () => answered(log, "valueOf", 2.5) }),
  "valueOf of a BigInt": (log) => ({ valueOf: () => answered(log, "valueOf", 2n) }),
  "valueOf of a text": (log) => ({ valueOf: () => answered(log, "valueOf", "4") }),
  "toString": (log) => ({
    valueOf: () => answered(log, "valueOf", {}), toString: () => answered(log, "toString", "6"),
  }),
  "neither": (log) => ({ valueOf: () => answered(log, "valueOf", {}), toString: () => answered(log, "toString", {}) }),
  "toPrimitive": (log) => ({
    [Symbol.toPrimitive]: (hint) => answered(log, `toPrimitive ${hint}`, "1"), valueOf: null,
  }),
  "toPrimitive of an object": (log) => ({ [Symbol.toPrimitive]: () => answered(log, "toPrimitive", {}) }),
  "toPrimitive that is none": () => ({ [Symbol.toPrimitive]: 5 }),
  "a getter": (log) => ({ get valueOf() { return answered(log, "get", () => answered(log, "valueOf", 3)); } }),
  "valueOf that throws": (log) => ({ valueOf: () => thrown(log, "mine") }),
  "a proxy": (log) => new Proxy({}, { get: (_, key) => void log.push(`get ${String(key)}`) }),
};

/** @param {string[]} log @param {string} what @param {unknown} answer */
function answered(log, what, answer) {
  log.push(what);
  return answer;
}

/** @param {string[]} log @param {string} what @returns {never} */
function thrown(log, what) {
  log.push(`throws ${what}`);
  throw new EvalError(what);
}

/** The functions, with what they take after the index. A wait comes after a store, so that it finds what was stored. */
const FUNCTIONS = {
  store: 1, wait: 2, notify: 1, load: 0, exchange: 1, add: 1, sub: 1, and: 1, or: 1, xor: 1, compareExchange: 2,
};

/** Arrays of eight elements: where nothing is said of operands they are whole, of the array's type. */
const KINDS = [
  Int8Array, Uint8Array, Uint8ClampedArray, Int16Array, Uint16Array, Int32Array, Uint32Array, Float32Array,
  Float64Array, BigInt64Array, BigUint64Array,
];

/** Who waits for ever in the engine: a wait whose timeout is none must find another value. */
const NEVER = 123_456_789;
const ENDLESS = [
  "undefined", "NaN", "Infinity", "2 ** 53", "2 ** 60 + 2 ** 20", "1e300", "'ten'", "a function", "an object", "[1, 2]",
  "a proxy",
];

/** @param {unknown} value */
const spelled = (value) => `${typeof value} ${Object.is(value, -0) ? "-0" : String(value)}`;

/**
 * Makes a call, and notes what came of it.
 * @param {typeof Atomics} atomics
 * @param {string} name @param {object} view @param {unknown[]} given @param {string[]} log
 */
function resultOf(atomics, name, view, given, log) {
  try {
    return [spelled(atomics[name](view, ...given)), ...log];
  } catch (error) {
    return [`throws ${error.name}`, ...log];
  }
}

/**
 * The arguments of a call, of which all but one log and are right.
 * @param {string} name of the function @param {object} view @param {number} place of the other one
 * @param {string} argument @param {string[]} log
 */
function argumentsOf(name, view, place, argument, log) {
  const isBig = /Big/.test(view.constructor.name);
  const usual = [1, isBig ? 2n : 2, isBig ? 7n : 7];
  if (name === "notify") usual[1] = 3;
  if (name === "wait") usual[2] = 0;
  if (name === "wait" && place === 2 && ENDLESS.includes(argument)) usual[1] = isBig ? BigInt(NEVER) : NEVER;
  const right = (at) => ({ valueOf: () => answered(log, `argument ${at}`, usual[at]) });
  const places = Array.from({ length: 1 + FUNCTIONS[name] }, (_, at) => at);
  return places.map((at) => (at === place ? ARGUMENTS[argument](log) : right(at)));
}

/**
 * Makes each call with each argument at one place.
 * @param {typeof Atomics} atomics
 * @param {object} view @param {number} place 0 for the index
 * @returns {string[][]} what came of each
 */
function resultsOn(atomics, view, place) {
  const results = [];
  for (const argument of Object.keys(ARGUMENTS)) {
    for (const [name, count] of Object.entries(FUNCTIONS)) {
      if (place > count) continue;
      const log = [];
      const given = argumentsOf(name, view, place, argument, log);
      results.push([`${name} of ${argument}`, ...resultOf(atomics, name, view, given, log)]);
    }
  }
  return results;
}

export const KIND_NAMES = KINDS.map(({ name }) => name);

/**
 * What comes of each call, with each argument at each place, and the bytes at the end.
 * @param {typeof Atomics} atomics
 * @param {string} kind of an array of eight elements
 * @param {SharedArrayBuffer | ArrayBuffer} buffer of 64 bytes
 */
export function found(atomics, kind, buffer) {
  const view = new (KINDS.find(({ name }) => name === kind))(buffer, 0, 8);
  const results = [0, 1, 2].map((place) => resultsOn(atomics, view, place));
  return { kind, results, bytes: Array.from(new Uint8Array(buffer)) };
}

/** The agent: its arguments are whose memory the arrays are on, a file for what it finds, and kinds. */
export default function agent({ buffers, args: [whose, file, ...kinds] }) {
  const others = { shared: () => new SharedArrayBuffer(64), private: () => new ArrayBuffer(64) };
  // A run needs a call.
  Atomics.load(new Int32Array(buffers[0]), 0);
  const bufferOf = (at) => (whose === "recorded" ? buffers[at] : others[whose]());
  writeFileSync(file, JSON.stringify(kinds.map((kind, at) => found(Atomics, kind, bufferOf(at)))));
}
