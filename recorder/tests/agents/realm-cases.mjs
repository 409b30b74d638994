// The watched realm itself: what `seen` gets, what it throws, and agents that replace what the language has.

import assert from "node:assert/strict";
import crypto from "node:crypto";
import fs from "node:fs";
import { DATA_VIEW, KINDS, collectedOf, difference, doneThough, notRefused, unwrapped } from "./watched-realm.mjs";

const words = (buffer) => new Int32Array(buffer, 8, 4);
const view = (buffer) => new DataView(buffer, 8, 16);
const node = (buffer) => Buffer.from(buffer, 8, 16);
const bytes = (buffer) => new Uint8Array(buffer, 8, 16);

/** What throws where the run is over, and has changed nothing. */
const OVER = {
  "an element that is read": [words, (array) => array[0]],
  "an element that is written": [words, (array) => (array[0] = 7)],
  "defining an element": [words, (array) => Object.defineProperty(array, 0, { value: 7 })],
  "fill": [words, (array) => array.fill(7)],
  "set": [words, (array) => array.set([7])],
  "set of an array": [words, (array) => array.set(new Int32Array([7]))],
  "set of itself": [words, (array) => array.set(array.subarray(1))],
  "set into a private array": [words, (array) => new Int32Array(9).set(array)],
  "copyWithin": [words, (array) => array.copyWithin(0, 1)],
  "reverse": [words, (array) => array.reverse()],
  "sort": [words, (array) => array.sort()],
  "slice": [words, (array) => array.slice()],
  "a copy": [words, (array) => new Int32Array(array)],
  "map": [words, (array) => array.map((value) => value)],
  "spread": [words, (array) => [...array]],
  "JSON": [words, (array) => JSON.stringify(array)],
  "a DataView that reads": [view, (array) => array.getInt8(0)],
  "a DataView that writes": [view, (array) => array.setInt32(0, 7)],
  "a buffer's slice": [(buffer) => buffer, (buffer) => buffer.slice(0, 4)],
  "a Buffer's write": [node, (array) => array.write("text")],
  "a Buffer's fill": [node, (array) => array.fill("ab")],
  "a Buffer's copy": [node, (array) => array.copy(array, 1)],
  "a Buffer's swap16": [node, (array) => array.swap16()],
  "a Buffer's writeInt32LE": [node, (array) => array.writeInt32LE(7)],
  "a Buffer's toString": [node, (array) => array.toString()],
  "encodeInto": [bytes, (array) => new TextEncoder().encodeInto("abc", array)],
  "getRandomValues": [bytes, (array) => crypto.getRandomValues(array)],
  "readSync": [bytes, (array) => fs.readSync(fs.openSync(new URL(import.meta.url), "r"), array)],
  "hash.update": [bytes, (array) => crypto.createHash("sha1").update(array)],
};

const owners = [
  Array.prototype, Map.prototype, Set.prototype, WeakMap.prototype, String.prototype, Number.prototype,
  Object.prototype, Function.prototype, Object.getPrototypeOf([].values()), Reflect, Object, Math, Number, BigInt,
  ArrayBuffer, Array,
];

/** Replaces all functions that the language has there by ones that throw; returns what puts them back. */
function spoil() {
  const { defineProperty, ownKeys, getOwnPropertyDescriptor } = Reflect;
  const kept = [];
  const value = function () {
    throw new Error("the agents' own");
  };
  for (const owner of owners) {
    for (const key of ownKeys(owner)) {
      const found = getOwnPropertyDescriptor(owner, key);
      const isNeeded = key === "constructor" || key === "valueOf" || key === "toString" || key === Symbol.hasInstance;
      if (typeof found.value !== "function" || !found.configurable || isNeeded) continue;
      kept[kept.length] = [owner, key, found];
    }
  }
  for (let at = 0; at < kept.length; at += 1) defineProperty(kept[at][0], kept[at][1], { ...kept[at][2], value });
  return () => {
    for (let at = 0; at < kept.length; at += 1) defineProperty(kept[at][0], kept[at][1], kept[at][2]);
  };
}

/** A function whose code finds nothing of the language as it was. */
const spoiled = (body) => (array, buffer) => {
  const restore = spoil();
  try {
    return body(array, buffer);
  } finally {
    restore();
  }
};

/** What works whatever agents replace. */
const SPOILED = {
  "elements": [words, (array) => (array[0] = array[1] + 1)],
  "own properties": [words, (array) => 3 in array && (array.own = 5)],
  "methods that read": [words, (array) => `${array.at(1)} ${array.indexOf(3)} ${array.join()} ${array.includes(1)}`],
  "callbacks": [words, (array) => array.reduce((one, other) => one + other) + array.find((value) => value > 5)],
  "methods that answer an array": [
    words, (array) => array.map((value) => value + 1).filter((value) => value > 2).slice(1).with(0, 5).toSorted()[0],
  ],
  "methods that write": [
    words, (array) => array.fill(1, 2).reverse().copyWithin(0, 2).sort((one, other) => other - one)[0],
  ],
  "set": [words, (array) => array.set(array.subarray(1), 0) ?? array.set({ length: 1, 0: 4 }, 2)],
  "constructors": [
    words, (array) => new Int32Array(array)[0] + new Float64Array(array.buffer)[0] + new Int32Array(3).length,
  ],
  "a class": [words, (_array, buffer) => new (class extends Int32Array {
    own = 5;
    constructor(given) { super(given); }
  })(buffer).own],
  "a DataView": [view, (array) => array.setInt16(0, array.getInt16(2)) ?? array.byteLength],
  "a Buffer": [node, (array) => array.write("ab") + array.toString("latin1", 0, 2) + array.readInt16LE(3)],
  "a Buffer's copy": [node, (array) => array.copy(array, 2) + array.subarray(2).length + array.fill(1, 9, 10).length],
  "a buffer's slice": [words, (array) => new Int32Array(array.buffer.slice(8, 12))[0]],
  "a clone": [words, (array) => structuredClone(array)[0]],
  "decode": [bytes, (array) => new TextDecoder("latin1").decode(array)],
  "fs": [bytes, (array) => fs.writeSync(2, array, 0, 0)],
  "crypto": [bytes, (array) => crypto.timingSafeEqual(array, array)],
};

/** What `seen` gets about one access. */
function place() {
  const { places } = collectedOf(words, (array, buffer) => {
    array[1] = array[2];
    new DataView(buffer, 3, 7).getInt8(0);
    buffer.slice();
  });
  const wanted = { block: 0, kind: KINDS.indexOf("Int32"), offset: 8, length: 4 };
  assert.deepEqual(places, [
    wanted, wanted, { block: 0, kind: DATA_VIEW, offset: 3, length: 7 },
    { block: 0, kind: DATA_VIEW + 1, offset: 0, length: 64 },
  ]);
  assert.equal(places[0], places[1]);
}

/** The array behind what `structuredClone` answers is on the recorded buffer itself. */
function cloned() {
  collectedOf(words, (array, buffer) => {
    const clone = structuredClone(structuredClone(array));
    const again = new Int16Array(clone.buffer, 2, 3);
    const behind = Object.getOwnPropertyDescriptor(Object.getPrototypeOf(Int8Array.prototype), "buffer").get;
    for (const made of [clone, again, clone.subarray(1), Buffer.from(clone.buffer)]) {
      assert.notEqual(made.buffer, buffer);
      assert.equal(made.buffer, clone.buffer);
      assert.equal(Reflect.apply(behind, unwrapped(made), []), buffer);
    }
    assert.equal(new DataView(clone.buffer).buffer, clone.buffer);
  });
}

const CLASSES = {
  "an AssertionError is one": () => {
    try {
      assert.equal(1, 2);
    } catch (error) {
      assert.ok(error instanceof assert.AssertionError);
      assert.equal(error.constructor, assert.AssertionError);
    }
  },
  "where an array stands": place,
  "a clone stands on the recorded buffer": cloned,
  "a private array's elements are no proxy's": () => {
    for (const kind of KINDS) {
      const own = new globalThis[`${kind}Array`](3);
      assert.equal(unwrapped(own), own);
      assert.equal(unwrapped(own.subarray(1)).length, 2);
    }
  },
};

/** By its name, a function for each case; it returns what is wrong. */
export function cases() {
  const made = { ...CLASSES };
  for (const [name, [make, body]] of Object.entries(OVER)) made[`over: ${name}`] = () => doneThough(make, body);
  for (const [name, [make, body]] of Object.entries(SPOILED)) {
    made[`with the language replaced: ${name}`] = () => difference(make, spoiled(body), { works: true });
  }
  made["a mark that holds a buffer is refused"] = () => notRefused(words, (_array, buffer) => performance.mark("x", {
    detail: { buffer },
  }));
  return made;
}
