// What typed arrays and DataViews do on recorded buffers: each case is tried on a plain array too.

import { BYTES, KINDS, bytesOf, difference, range, unwrapped } from "./watched-realm.mjs";

const OFFSET = 8;
const LENGTH = 5;
const ALL = range(0, LENGTH);
const NONE = [];

const NUMBERS = KINDS.filter((kind) => !kind.startsWith("Big"));

/**
 * @typedef {object} Tools what a case has besides its array
 * @property {(number: number) => number | bigint} value as an element of the array's kind
 * @property {Function} Kind the constructor
 * @property {SharedArrayBuffer} buffer
 */

/**
 * Of each kind: what is done, the elements read, the elements written, and the kinds where it isn't all of them.
 * @type {Record<string, [(array: any, tools: Tools) => unknown, number[], number[], string[]?]>}
 */
const EACH = {
  "an element": [(a) => a[1], [1], NONE],
  "an element by its name": [(a) => a["1"], [1], NONE],
  "keys that are no index": [
    (a) => ["01", "1e0", "-0", "1.5", -1, LENGTH, "+1", " 1", NaN, 2 ** 32, "", "1 "].map((key) => a[key]),
    NONE, NONE,
  ],
  "properties of one's own": [(a) => {
    a.name = 5;
    a["01"] = 6;
    return [a.name, a["01"], Object.keys(a).slice(LENGTH), delete a.name, a.name, "01" in a];
  }, ALL, NONE],
  "writing": [(a, { value }) => (a[2] = value(7)), NONE, [2]],
  "writing and reading": [(a, { value }) => (a[2] += value(7)), [2], [2]],
  "writing what isn't there": [(a, { value }) => {
    a[LENGTH] = value(1);
    a[-1] = value(1);
    a["-0"] = value(1);
    a["1.5"] = value(1);
    return [Object.keys(a).length, a[LENGTH], a[-1]];
  }, ALL, NONE],
  "writing a wrong kind": [(a, { value }) => (a[0] = typeof value(1) === "bigint" ? 1 : 1n), NONE, NONE],
  "writing a wrong kind nowhere": [(a, { value }) => (a[99] = typeof value(1) === "bigint" ? 1 : 1n), NONE, NONE],
  "writing a Symbol": [(a) => (a[0] = Symbol("s")), NONE, NONE],
  "a value that looks first": [(a, { value }) => {
    a[0] = { valueOf: () => { a[1] = value(9); return value(8); } };
    return a[0];
  }, [0], [0, 1]],
  "a value that throws": [(a) => (a[0] = { valueOf: () => { throw new RangeError("no"); } }), NONE, NONE],
  "in": [(a) => [0 in a, LENGTH in a, "-0" in a, "length" in a, "1.5" in a], NONE, NONE],
  "delete": [(a) => Reflect.deleteProperty(a, 0) || Reflect.deleteProperty(a, 99), NONE, NONE],
  "deleting throws": [(a) => delete a[0], NONE, NONE],
  "what it is": [(a, { Kind, buffer }) => [
    a.length, a.byteLength, a.byteOffset, a.buffer === buffer, a.BYTES_PER_ELEMENT, a instanceof Kind,
    a.constructor === Kind, Object.prototype.toString.call(a), a[Symbol.toStringTag],
    Object.getPrototypeOf(a) === Kind.prototype,
    Object.getPrototypeOf(Kind).name, Array.isArray(a), ArrayBuffer.isView(a), typeof a,
  ], NONE, NONE],
  "getters of the prototype": [(a, { Kind }) => [
    "buffer", "byteLength", "byteOffset", "length", Symbol.toStringTag,
  ].map((name) => Object.getOwnPropertyDescriptor(Object.getPrototypeOf(Kind.prototype), name).get.call(a)),
  NONE, NONE],
  "getters of others throw": [(a, { Kind }) => Object.getPrototypeOf(Kind.prototype).length, NONE, NONE],
  "own properties": [(a) => [Reflect.ownKeys(a), Object.getOwnPropertyNames(a).length], NONE, NONE],
  "Object.keys": [(a) => Object.keys(a), ALL, NONE],
  "Object.values and entries": [(a) => [Object.values(a), Object.entries(a)], ALL, NONE],
  "for in": [(a) => {
    const names = [];
    for (const name in a) names.push(name);
    return names;
  }, ALL, NONE],
  "for of": [(a) => {
    const values = [];
    for (const value of a) values.push(value);
    return values;
  }, ALL, NONE],
  "for of, left early": [(a) => {
    for (const value of a) return value;
    return undefined;
  }, [0], NONE],
  "destructuring": [(a) => {
    const [first, , third, ...rest] = a;
    return [first, third, rest];
  }, ALL, NONE],
  "destructuring a part": [(a) => {
    const [first, second] = a;
    const { 3: fourth, length } = a;
    return [first, second, fourth, length];
  }, [0, 1, 3], NONE],
  "spread": [(a) => [...a, { ...a }, Math.max(...[...a].map(Number))], ALL, NONE],
  "Object.assign": [(a) => Object.assign({}, a), ALL, NONE],
  "Object.assign to it": [(a, { value }) => Object.assign(a, [value(4), value(3)]), NONE, [0, 1]],
  "JSON": [(a) => JSON.stringify({ a }, (_key, inner) => (typeof inner === "bigint" ? `${inner}` : inner)), ALL, NONE],
  "text": [(a) => [`${a}`, a + "", a.toString(), String(a)], ALL, NONE],
  "a descriptor": [(a) => Object.getOwnPropertyDescriptor(a, 1), [1], NONE],
  "a descriptor of nothing": [(a) => [Object.getOwnPropertyDescriptor(a, LENGTH), Reflect.has(a, 99)], NONE, NONE],
  "descriptors": [(a) => Object.getOwnPropertyDescriptors(a), ALL, NONE],
  "defining an element": [(a, { value }) => Object.defineProperty(a, 1, { value: value(6) }), undefined, [1]],
  "defining it as it must be": [(a, { value }) => Reflect.defineProperty(a, 1, {
    value: value(6), writable: true, enumerable: true, configurable: true,
  }), undefined, [1]],
  "defining without a value": [(a) => Reflect.defineProperty(a, 1, { enumerable: true }), undefined, NONE],
  "defining it as it can't be": [(a, { value }) => [
    Reflect.defineProperty(a, 1, { value: value(6), configurable: false }),
    Reflect.defineProperty(a, 1, { value: value(6), writable: false }),
    Reflect.defineProperty(a, 1, { value: value(6), enumerable: false }),
    Reflect.defineProperty(a, 1, { get: () => 1 }), Reflect.defineProperty(a, 99, { value: value(6) }),
    Reflect.defineProperty(a, "-0", { value: value(6) }),
  ], undefined, NONE],
  "freezing": [(a) => Object.freeze(a)],
  "freezing, and what is left": [(a) => {
    try {
      Object.freeze(a);
    } catch {
      // It is what the next line asks about.
    }
    return [Object.isExtensible(a), Object.isFrozen(a)];
  }],
  "sealing": [(a) => [Object.seal(a) === a, Object.isExtensible(a)]],
  "Reflect.get and set": [
    (a, { value }) => [Reflect.get(a, 1), Reflect.set(a, 2, value(4)), Reflect.set(a, "99", value(1))], [1], [2],
  ],
  "set with another receiver": [(a, { value }) => {
    const other = {};
    return [Reflect.set(a, 0, value(9), other), other];
  }, undefined, NONE],
  "set with an array as the receiver": [(a, { value, Kind }) => {
    const other = new Kind(2);
    return [Reflect.set(other, 0, value(9), a), Reflect.set(a, 1, value(9), other), other];
  }],
  "what inherits from it": [(a, { value }) => {
    const heir = Object.create(a);
    heir[0] = value(5);
    heir.x = 1;
    return [heir[0], heir[1], Object.keys(heir)];
  }, undefined, NONE],
  "its prototype": [(a) => {
    Object.setPrototypeOf(a, { __proto__: Object.getPrototypeOf(a), twice() { return this[0] + this[0]; } });
    return [a.twice(), a.length];
  }, [0], NONE],
  "at": [(a) => [a.at(0), a.at(-1), a.at(9), a.at("2"), a.at(-9), a.at(NaN)], [0, 2, 4], NONE],
  "every": [(a) => a.every((value, index) => index < 2), [0, 1, 2], NONE],
  "some": [(a) => a.some((value, index) => index === 1), [0, 1], NONE],
  "find": [(a) => a.find((value, index) => index === 2), [0, 1, 2], NONE],
  "findIndex": [(a) => [a.findIndex((value, index) => index === 2), a.findIndex(() => false)], ALL, NONE],
  "findLast": [(a) => a.findLast((value, index) => index === 3), [3, 4], NONE],
  "findLastIndex": [(a) => [a.findLastIndex((value, index) => index === 3)], [3, 4], NONE],
  "forEach": [(a, tools) => {
    const given = [];
    a.forEach(function (...all) { given.push(all[0], all[1], all[2] === a, this === tools); }, tools);
    return given;
  }, ALL, NONE],
  "a callback that writes": [(a, { value }) => a.map((inner, index, same) => {
    if (index < 4) same[index + 1] = value(3);
    return inner;
  }), ALL, [1, 2, 3, 4]],
  "no callback": [(a) => a.forEach(undefined), NONE, NONE],
  "a callback that throws": [(a) => a.map((value, index) => {
    if (index === 1) throw new EvalError("x");
    return value;
  }), [0, 1], NONE],
  "includes": [
    (a, { value }) => [a.includes(a[1]), a.includes(value(50)), a.includes("1"), a.includes(a[4], -1)], ALL, NONE,
  ],
  "indexOf": [(a) => a.indexOf(a[1]), [0, 1], NONE],
  "indexOf from": [(a) => [a.indexOf(a[3], 3), a.indexOf(undefined, 9), a.indexOf(0, -1)], [3, 4], NONE],
  "lastIndexOf": [(a) => [a.lastIndexOf(a[3])], [3, 4], NONE],
  "lastIndexOf from": [
    (a) => [a.lastIndexOf(a[1], -4), a.lastIndexOf(a[0], undefined), a.lastIndexOf(1, -99)], [0, 1], NONE,
  ],
  "join": [(a) => [a.join(), a.join("-"), a.join(undefined), a.join(null)], ALL, NONE],
  "join by a Symbol": [(a) => a.join(Symbol("s")), NONE, NONE],
  "reduce": [
    (a) => [a.reduce((one, other) => one + other), a.reduce((text, value, at) => `${text}${value}${at}`, "")],
    ALL, NONE,
  ],
  "reduceRight": [(a) => a.reduceRight((text, value, at, same) => `${text}${value}${at}${same === a}`, ""), ALL, NONE],
  "reduce of nothing": [(a) => a.subarray(0, 0).reduce((one) => one), NONE, NONE],
  "keys": [(a) => [...a.keys()], NONE, NONE],
  "values": [
    (a) => [a.values().next(), a[Symbol.iterator] === a.values, Object.prototype.toString.call(a.values())], [0], NONE,
  ],
  "entries": [(a) => [...a.entries()], ALL, NONE],
  "toLocaleString": [(a) => a.toLocaleString("de-DE"), ALL, NONE],
  "map": [(a, { value }) => a.map((inner) => inner + value(1)), ALL, NONE],
  "filter": [(a) => a.filter((value, index) => index % 2 === 0), ALL, NONE],
  "slice": [(a) => a.slice(1, 3), [1, 2], NONE],
  "slice of all": [(a) => [a.slice(), a.slice(-2), a.slice(3, 1), a.slice(undefined, -1)], ALL, NONE],
  "subarray": [(a) => {
    const part = a.subarray(1, 3);
    part[0] = part[1];
    return [part.length, part.byteOffset, part.buffer === a.buffer];
  }, [2], [1]],
  "subarrays": [(a) => [a.subarray().length, a.subarray(-2).byteOffset, a.subarray(4, 2).length], NONE, NONE],
  "set": [(a, { value }) => a.set([value(1), value(2)], 3), NONE, [3, 4]],
  "set of a private array": [(a, { Kind, value }) => a.set(new Kind([value(1), value(2)]), 1), NONE, [1, 2]],
  "set of itself": [(a) => a.set(a.subarray(0, 3), 1), [0, 1, 2], [1, 2, 3]],
  "set of other kinds": [(a, { value, buffer }) => a.set(typeof value(1) === "bigint"
    ? new BigInt64Array(buffer, 0, 1) : new Int8Array(buffer, 8, 1), 4), undefined, [4]],
  "set into a private array": [(a, { Kind }) => {
    const own = new Kind(6);
    own.set(a, 1);
    return own;
  }, ALL, NONE],
  "set of what is like an array": [
    (a, { value }) => a.set({ length: 2, 0: value(5), get 1() { return a[4]; } }), [4], [0, 1],
  ],
  "set of too much": [(a, { Kind }) => a.set(new Kind(9)), NONE, NONE],
  "set before the start": [(a, { Kind }) => a.set(new Kind(1), -1), NONE, NONE],
  "set of too long a list": [(a, { value }) => a.set([value(1), value(2)], 4), NONE, NONE],
  "set of the other numbers": [
    (a, { value }) => a.set(typeof value(1) === "bigint" ? new Int8Array(1) : new BigInt64Array(1)), NONE, NONE,
  ],
  "set of nothing": [(a) => a.set(null), NONE, NONE],
  "set of a number": [(a) => a.set(5), NONE, NONE],
  "fill": [(a, { value }) => a.fill(value(2), 1, 3), NONE, [1, 2]],
  "fill of all": [(a, { value }) => a.fill(value(2)), NONE, ALL],
  "fill of nothing": [(a, { value }) => a.fill(value(2), 3, 1), NONE, NONE],
  "fill by what looks": [(a, { value }) => a.fill({ valueOf: () => a[0] + value(1) }, -1), [0], [4]],
  "fill of a wrong kind": [(a, { value }) => a.fill(typeof value(1) === "bigint" ? 1 : 1n, 9), NONE, NONE],
  "copyWithin": [(a) => a.copyWithin(0, 2, 4), [2, 3], [0, 1]],
  "copyWithin over itself": [(a) => a.copyWithin(1, 0), [0, 1, 2, 3], [1, 2, 3, 4]],
  "copyWithin of nothing": [(a) => a.copyWithin(9, 0), NONE, NONE],
  "reverse": [(a) => a.reverse(), [0, 1, 3, 4], [0, 1, 3, 4]],
  "sort": [(a) => a.sort(), ALL, ALL],
  "sort by": [(a) => a.sort((one, other) => (one < other ? 1 : one > other ? -1 : 0)), ALL, ALL],
  "sort by what throws": [(a) => a.sort(() => { throw new EvalError("x"); }), ALL, NONE],
  "sort by what writes": [(a, { value }) => a.sort((one, other) => {
    a[0] = value(1);
    return Number(one - other);
  }), ALL, ALL],
  "sort by no function": [(a) => a.sort(5), NONE, NONE],
  "toReversed": [(a) => a.toReversed(), ALL, NONE],
  "toSorted": [(a) => [a.toSorted(), a.toSorted((one, other) => Number(other - one))], ALL, NONE],
  "with": [(a, { value }) => a.with(1, value(9)), [0, 2, 3, 4], NONE],
  "with out of range": [(a, { value }) => a.with(LENGTH, value(9)), NONE, NONE],
  "from": [(a, { Kind }) => [Kind.from(a), Kind.from(a, (value) => value), Array.from(a)], ALL, NONE],
  "of": [(a, { Kind }) => Kind.of(a[1], a[2]), [1, 2], NONE],
  "a copy": [(a, { Kind }) => {
    const copy = new Kind(a);
    return [copy, copy.buffer === a.buffer];
  }, ALL, NONE],
  "a copy of another kind": [
    (a, { value }) => new (typeof value(1) === "bigint" ? BigUint64Array : Float64Array)(a), ALL, NONE,
  ],
  "a copy of the other numbers": [
    (a, { value }) => new (typeof value(1) === "bigint" ? Int8Array : BigInt64Array)(a), NONE, NONE,
  ],
  "a Set and a Map": [(a) => [new Set(a), new Map([[a, 1]]).get(a), new WeakMap([[a, 2]]).get(a)], ALL, NONE],
  "concat": [(a) => [[].concat(a).length, [].concat([...a])], ALL, NONE],
  "an Array's methods": [(a) => [
    Array.prototype.map.call(a, (value) => value), Array.prototype.join.call(a, "/"),
    Array.prototype.slice.call(a, 1, 2),
  ], ALL, NONE],
  "an Array's methods that write": [(a, { value }) => Array.prototype.fill.call(a, value(3), 1, 2), NONE, [1]],
  "an Array's reverse": [(a) => Array.prototype.reverse.call(a), [0, 1, 3, 4], [0, 1, 3, 4]],
  "an Array's push throws": [(a, { value }) => Array.prototype.push.call(a, value(1)), NONE, NONE],
  "the prototype's methods": [(a, { Kind, value }) => [Kind.prototype.fill.call(a, value(2), 0, 1) === a,
    Kind.prototype.at.call(a, 1), Kind.prototype.map.call(a, (inner) => inner)], ALL, [0]],
  "methods of what is none": [(a, { Kind }) => Kind.prototype.fill.call([1, 2], 0), NONE, NONE],
  "names of methods": [(a) => ["fill", "set", "map", "subarray", "at", "values", "toString", "constructor"].map(
    (name) => [a[name].name, a[name].length],
  ), NONE, NONE],
  "without new": [(a, { Kind }) => Kind(4), NONE, NONE],
  "constructors": [(a, { Kind, buffer }) => [
    Kind.name, Kind.length, Kind.BYTES_PER_ELEMENT, Kind.prototype.BYTES_PER_ELEMENT, new Kind().length,
    new Kind(3).length, new Kind("2").length, new Kind(undefined).length, new Kind(null).length,
    new Kind(buffer).byteLength,
    new Kind({ length: 2 }).length, new Kind([]).length, Object.getOwnPropertyNames(Kind), new Kind(new Set()).length,
    Object.getOwnPropertyDescriptor(Kind, "prototype").writable, Kind.prototype.constructor === Kind,
  ], NONE, NONE],
  "wrong lengths": [(a, { Kind }) => new Kind(-1), NONE, NONE],
  "wrong offsets": [(a, { Kind, buffer }) => new Kind(buffer, BYTES + 8), NONE, NONE],
  "a part that isn't there": [(a, { Kind, buffer }) => new Kind(buffer, 8, 99), NONE, NONE],
  "a class": [(a, { Kind, value, buffer }) => {
    class Words extends Kind {
      #own = 4;
      other = 5;
      get own() { return this.#own; }
      fill(...given) { return super.fill(...given); }
      first() { return this[0]; }
      replace(inner) { super[0] = inner; }
    }
    const words = new Words(buffer, OFFSET, LENGTH);
    words.replace(value(6));
    return [words.own, words.other, words instanceof Words, words instanceof Kind, words.fill(value(1), 1, 2) === words,
      words.first(), words.subarray(1) instanceof Words, words.map((inner) => inner).own,
      words.slice(1).constructor === Words, Words.from([value(1)]) instanceof Words, Words.of(value(3))[0],
      new Words(2).length, words.length, Object.keys(words).at(-1)];
  }, undefined, [0, 1]],
  "a class with another species": [(a, { Kind, buffer }) => {
    class Words extends Kind {
      static get [Symbol.species]() { return Kind; }
    }
    const words = new Words(buffer, OFFSET, LENGTH);
    return [words.slice(1).constructor === Kind, words.subarray(1).constructor === Kind, words.subarray(1).length];
  }, [1, 2, 3, 4], NONE],
  "a species that answers recorded memory": [(a, { Kind, buffer }) => {
    a.constructor = { [Symbol.species]: function () { return new Kind(buffer, OFFSET, LENGTH); } };
    return [a.slice(3).length, a.filter(() => false).length];
  }, ALL, [0, 1]],
  "a species of the other numbers": [(a, { value }) => {
    a.constructor = { [Symbol.species]: typeof value(1) === "bigint" ? Int8Array : BigInt64Array };
    return a.slice(1);
  }, undefined, NONE],
  "a species that is too short": [(a, { Kind }) => {
    a.constructor = { [Symbol.species]: function () { return new Kind(1); } };
    return a.slice(1);
  }, undefined, NONE],
  "from and of for a class on recorded memory": [(a, { Kind, value, buffer }) => {
    class Words extends Kind {
      constructor() { super(buffer, OFFSET, LENGTH); }
    }
    return [Words.of(value(1), value(2)).length, Words.from([value(5)], (inner) => inner + value(1))[0], a[1]];
  }, [0, 1], [0, 1]],
  "a property of the prototype": [(a, { Kind }) => {
    Object.defineProperty(Kind.prototype, "second", { get() { return this[1]; }, configurable: true });
    const answer = a.second;
    delete Kind.prototype.second;
    return answer;
  }, [1], NONE],
  "no constructor": [(a) => {
    a.constructor = undefined;
    const kept = a.slice(1, 2);
    a.constructor = 5;
    return [kept, a.slice(1, 2)];
  }, undefined, NONE],
  "a getter named length": [(a, { Kind, buffer }) => {
    class Words extends Kind {
      get length() { return 1; }
    }
    const words = new Words(buffer, OFFSET, LENGTH);
    return [words.length, [...words].length, words.indexOf(words[2]), words.slice(3)];
  }, ALL, NONE],
  "a private array is the engine's": [(a, { Kind }) => [
    a.slice(), a.map((value) => value), new Kind(a), Kind.from(a), new Kind(3), new Kind(new SharedArrayBuffer(8)),
    Kind.of(), a.toSorted(), a.filter(() => true),
  ].map((made) => unwrapped(made) === made), ALL, NONE],
};

/** What only numbers have. @type {typeof EACH} */
const OF_NUMBERS = {
  "values that are converted": [(a) => {
    a[0] = "12";
    a[1] = true;
    a[2] = null;
    a[3] = undefined;
    a[4] = 300.7;
    return [...a];
  }, ALL, ALL],
  "values that are small": [(a) => {
    a[0] = -0;
    a[1] = NaN;
    a[2] = -1.5;
    a[3] = 1e300;
    return [Object.is(a[0], -0), a[1], a[2], a[3], a.includes(NaN), a.indexOf(NaN)];
  }, ALL, [0, 1, 2, 3]],
  "increments": [(a) => [a[1]++, --a[2], (a[3] <<= 1), (a[4] ||= 5)], [1, 2, 3, 4], [1, 2, 3]],
};

const SIZES = {
  Int8: 1, Uint8: 1, Int16: 2, Uint16: 2, Int32: 4, Uint32: 4, Float32: 4, Float64: 8, BigInt64: 8, BigUint64: 8,
  ...(KINDS.includes("Float16") ? { Float16: 2 } : {}),
};
const viewAt = (buffer) => new DataView(buffer, OFFSET, 24);

/** Cases of a DataView: what is done, the bytes read, the bytes written. */
const OF_VIEWS = {
  "what it is": [(view, buffer) => [view.byteLength, view.byteOffset, view.buffer === buffer, view instanceof DataView,
    view.constructor === DataView, Object.prototype.toString.call(view), ArrayBuffer.isView(view), Object.keys(view)],
  NONE, NONE],
  "a class": [(_view, buffer) => {
    class Reader extends DataView {
      #at = 1;
      next() { return this.getUint8(this.#at++); }
    }
    const reader = new Reader(buffer, OFFSET);
    return [reader.next(), reader.next(), reader instanceof Reader, reader.byteLength];
  }, [9, 10], NONE],
  "offsets": [(view) => [view.getInt8("3"), view.getInt8(), view.getInt8(2.9), view.getInt8(-0.5), view.getInt16(1)],
    [8, 9, 10, 11], NONE],
  "an offset that is too large": [(view) => view.getInt32(21), NONE, NONE],
  "an offset that is negative": [(view) => view.getInt32(-1), NONE, NONE],
  "an offset that is infinite": [(view) => view.setInt32(Infinity, 5), NONE, NONE],
  "an offset that is none": [(view) => view.setInt32(Symbol("s"), 5), NONE, NONE],
  "a value of a wrong kind": [(view) => view.setInt32(0, 5n), NONE, NONE],
  "a value of a wrong kind, of 8 bytes": [(view) => view.setBigInt64(0, 5), NONE, NONE],
  "a value that looks first": [(view) => view.setInt16(2, { valueOf: () => view.getInt8(0) + 1 }), [8], [10, 11]],
  "a value that throws": [(view) => view.setInt16(99, { valueOf: () => { throw new EvalError("x"); } }), NONE, NONE],
  "a method of a private view": [() => {
    const own = new DataView(new ArrayBuffer(8));
    own.setFloat32(2, 1.5);
    return [own.getFloat32(2), own.byteLength];
  }, NONE, NONE],
  "a method of what is none": [(view) => view.getInt8.call({}, 0), NONE, NONE],
  "a method of an array": [(view, buffer) => view.getInt8.call(new Int8Array(buffer), 0), NONE, NONE],
  "an array's method": [(view) => Int8Array.prototype.fill.call(view, 0), NONE, NONE],
  "an array of it": [(view) => new Int8Array(view).length, NONE, NONE],
  "without new": [(_view, buffer) => DataView(buffer), NONE, NONE],
  "of no buffer": [() => new DataView({}), NONE, NONE],
  "too long": [(_view, buffer) => new DataView(buffer, 8, 99), NONE, NONE],
  "names": [
    (view) => [DataView.name, DataView.length, view.setInt8.name, view.setInt8.length, view.getFloat64.length],
    NONE, NONE,
  ],
};

/** A case of one kind. */
function caseOf(kind, [body, reads, writes]) {
  const Kind = globalThis[`${kind}Array`];
  const value = kind.startsWith("Big") ? BigInt : Number;
  const bytesAt = (indexes) => indexes && bytesOf({ at: OFFSET, size: Kind.BYTES_PER_ELEMENT }, indexes);
  const make = (buffer) => new Kind(buffer, OFFSET, LENGTH);
  const wanted = { reads: bytesAt(reads), writes: bytesAt(writes) };
  return () => difference(make, (array, buffer) => body(array, { value, Kind, buffer }), wanted);
}

/** A case of each accessor of a DataView. */
function accessorCases(made) {
  for (const [name, size] of Object.entries(SIZES)) {
    const value = name.startsWith("Big") ? -5n : -5;
    const at = range(OFFSET + 3, OFFSET + 3 + size);
    for (const isLittle of [true, false, undefined]) {
      made[`DataView: get${name}, ${isLittle}`] = () =>
        difference(viewAt, (view) => view[`get${name}`](3, isLittle), { reads: at, writes: NONE });
      made[`DataView: set${name}, ${isLittle}`] = () =>
        difference(viewAt, (view) => view[`set${name}`](3, value, isLittle), { reads: NONE, writes: at });
    }
  }
}

/** A generator of numbers below a count, from a seed. */
function drawsFrom(seed) {
  let state = seed;
  return (count) => {
    state = (Math.imul(state, 1664525) + 1013904223) >>> 0;
    return Math.floor((state / 2 ** 32) * count);
  };
}

/** Something drawn to be done with an array. */
const RANDOM = [
  (a, draw, value) => (a[draw(7) - 1] = value(draw(400) - 100)),
  (a, draw) => a[draw(7) - 1],
  (a, draw, value) => a.fill(value(draw(9)), draw(9) - 4, draw(9) - 4),
  (a, draw) => a.copyWithin(draw(9) - 4, draw(9) - 4, draw(9) - 4),
  (a, draw) => a.slice(draw(9) - 4, draw(9) - 4),
  (a, draw) => a.set(a.subarray(draw(5), draw(6)), draw(4)),
  (a, draw, value) => a.set([value(draw(9)), value(draw(9))], draw(5)),
  (a) => a.reverse(),
  (a) => a.sort(),
  (a) => a.sort((one, other) => Number(other - one)),
  (a, draw, value) => [a.indexOf(value(draw(9)), draw(6)), a.lastIndexOf(value(draw(9)), draw(9) - 4)],
  (a, draw, value) => a.includes(value(draw(9)), draw(9) - 4),
  (a, draw, value) => a.map((inner) => inner + value(draw(3))),
  (a, draw, value) => a.forEach((inner, at) => (a[(at + draw(5)) % 5] = inner + value(1))),
  (a, draw, value) => a.with(draw(7) - 1, value(draw(99))),
  (a, draw) => [a.at(draw(12) - 6), a.join(draw(3)), [...a.entries()].length],
  (a, draw) => a.subarray(draw(9) - 4, draw(9) - 4).toReversed(),
  (a, draw, value) => Object.defineProperty(a, draw(6), { value: value(draw(9)) }),
  (a, draw) => a.filter(() => draw(2) === 0),
];

/** Many things that are drawn, one after the other. */
function randomCase(kind, seed) {
  const Kind = globalThis[`${kind}Array`];
  const value = kind.startsWith("Big") ? BigInt : Number;
  return () => difference((buffer) => new Kind(buffer, OFFSET, LENGTH), (array) => {
    const draw = drawsFrom(seed);
    const answers = [];
    for (let time = 0; time < 60; time += 1) {
      try {
        const answer = RANDOM[draw(RANDOM.length)](array, draw, value);
        answers.push(answer === array ? "itself" : answer);
      } catch (error) {
        answers.push(error.name);
      }
    }
    return answers;
  });
}

/** By its name, a function for each case; it returns what is wrong. */
export function cases() {
  const made = {};
  for (const kind of KINDS) {
    for (const [name, each] of Object.entries(EACH)) made[`${kind}: ${name}`] = caseOf(kind, each);
    for (let seed = 1; seed <= 20; seed += 1) made[`${kind}: drawn from ${seed}`] = randomCase(kind, seed);
  }
  for (const kind of NUMBERS) {
    for (const [name, each] of Object.entries(OF_NUMBERS)) made[`${kind}: ${name}`] = caseOf(kind, each);
  }
  accessorCases(made);
  for (const [name, [body, reads, writes]] of Object.entries(OF_VIEWS)) {
    made[`DataView: ${name}`] = () => difference(viewAt, body, { reads, writes });
  }
  return made;
}
