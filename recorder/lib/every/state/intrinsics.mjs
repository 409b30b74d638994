// Objects of the language that no name leads to: only syntax makes what has them.

const { getOwnPropertyDescriptor, getPrototypeOf } = Reflect;

/** @type {Record<string, () => unknown>} what has each, by its name; a version of node may lack it */
const MADE = {
  asyncFunction: () => async function made() {},
  asyncGenerator: () => (async function* made() {})(),
  asyncGeneratorFunction: () => async function* made() {},
  generator: () => (function* made() {})(),
  generatorFunction: () => function* made() {},
  arrayIterator: () => [][Symbol.iterator](),
  mapIterator: () => new Map()[Symbol.iterator](),
  setIterator: () => new Set()[Symbol.iterator](),
  stringIterator: () => ""[Symbol.iterator](),
  regExpStringIterator: () => "".matchAll(/./g),
  iteratorHelper: () => /** @type {any} */ ([].values()).map(String),
  wrapForValidIterator: () => /** @type {any} */ (globalThis).Iterator.from({ next() {} }),
  segments: () => new Intl.Segmenter().segment(""),
  segmentIterator: () => new Intl.Segmenter().segment("")[Symbol.iterator](),
  searchParamsIterator: () => new (/** @type {any} */ (globalThis)).URLSearchParams().keys(),
  typedArray: () => Int8Array,
};

/** @param {() => unknown} make @returns {unknown} undefined if this version of node has no such thing */
function madeBy(make) {
  try {
    return make();
  } catch {
    return undefined;
  }
}

/**
 * What reads and writes a property, where no name leads to it.
 * @type {Record<string, () => [object, string]>}
 */
const ACCESSORS = {
  throwTypeError: () => [(function made() {
    return arguments;
  })(), "callee"],
  stackOfErrors: () => [new Error("made"), "stack"],
};

/**
 * What each object of a kind has, and the engine has made once.
 * @type {Record<string, () => unknown>}
 */
const MEMBERS = {
  valuesOfArguments: () => (function made() {
    return arguments;
  })()[Symbol.iterator],
};

/** @returns {[unknown, string][]} each with a name */
export function intrinsics() {
  /** @type {[unknown, string][]} */
  const found = [];
  for (const [name, make] of Object.entries(MADE)) {
    const made = madeBy(make);
    if (made !== undefined) found.push([getPrototypeOf(/** @type {object} */ (made)), name]);
  }
  for (const [name, make] of Object.entries(ACCESSORS)) {
    const [object, key] = make();
    const { get, set } = getOwnPropertyDescriptor(object, key) ?? {};
    found.push([get, `${name}.get`], [set, `${name}.set`]);
  }
  for (const [name, make] of Object.entries(MEMBERS)) found.push([make(), name]);
  return found;
}
