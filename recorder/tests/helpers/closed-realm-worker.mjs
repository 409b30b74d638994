// Calls functions of a module, which `--all` has rewritten, one by one, in the realm in which agents are learned. What
// they are refused is an error here, so that the next one can be called.

import nodeUtil from "node:util";
import nodeVm from "node:vm";
import { parentPort, workerData } from "node:worker_threads";
import { Asker } from "../../lib/every/learning/asking.mjs";
import { loadCode } from "../../lib/every/learning/learned-code.mjs";
import { installRealm, installShown } from "../../lib/every/learning/realm.mjs";

/** @type {any} what the declarations of node here don't have */
const [util, vm] = [nodeUtil, nodeVm];

const { isProxy, ...others } = util.types;

/** @type {Record<string, (object: unknown) => boolean>} */
const KINDS = others;

/** @type {any} newer versions of node have it */
const { Iterator: iterators } = /** @type {any} */ (globalThis);

/** Another realm, as the engine makes it. */
const other = vm.runInNewContext("globalThis");

/** @returns {any[]} objects that can be reached in a realm, and that no list of names has */
const madeBySyntax = () => [
  function* made() {}, async function made() {}, async function* made() {}, () => {}, class {},
  (function* made() {})(), (async function* made() {})(), [].values(), "".matchAll(/./g), ""[Symbol.iterator](),
  new Map().keys(), new Set().keys(), new Int8Array(1).values(), /./, new Error("made"), Promise.resolve(), [],
  (function made() {
    return arguments;
  })(),
  new Intl.Segmenter().segment("a"), new Intl.Segmenter().segment("a")[Symbol.iterator](),
  ...(iterators === undefined ? [] : [
    iterators.from({ next() {} }), .../** @type {any[]} */ (["map", "flatMap"]).map((name) =>
      /** @type {any} */ ([].values())[name](String)),
  ]),
];

/** @param {object} object @returns {unknown[]} what its own members are, its getters and its setters */
const membersOf = (object) => Reflect.ownKeys(object).flatMap((key) => {
  const { value, get, set } = /** @type {PropertyDescriptor} */ (Reflect.getOwnPropertyDescriptor(object, key));
  return [value, get, set];
});

/** @param {unknown} value @returns {value is any} */
const isObject = (value) => (typeof value === "object" && value !== null) || typeof value === "function";

/** @param {(object: object) => boolean} isKnown @returns {string[]} what can be reached, and isn't known */
function unknownIn(isKnown) {
  const made = madeBySyntax();
  const own = new Set(made);
  // A function has its own prototype, and so has what a generator function returns.
  for (const one of made) {
    if (isObject(one.prototype)) own.add(one.prototype);
    if (/Generator\]$/.test(Object.prototype.toString.call(one))) own.add(Reflect.getPrototypeOf(one));
  }
  const found = new Set([globalThis, ...made]);
  /** @type {string[]} */
  const unknown = [];
  for (const object of found) {
    if (!own.has(object) && !isKnown(object)) unknown.push(util.inspect(object));
    if (isProxy(object)) continue;
    for (const one of [Reflect.getPrototypeOf(object), ...membersOf(object)]) if (isObject(one)) found.add(one);
  }
  return unknown;
}

/** @param {object} object @returns {string | undefined} which kind of object with a state of its own it is */
function stateOf(object) {
  if (isProxy(object)) return undefined;
  const harmless = ["isFunction", "isAsyncFunction", "isGeneratorFunction", "isExternal", "isModuleNamespaceObject"];
  const kinds = Object.keys(KINDS).filter((kind) => !harmless.includes(kind) && !/Boxed|Object$/.test(kind));
  return kinds.find((kind) => KINDS[kind](object));
}

/** What of the language is compared with that of another realm, by the names of the owners. */
const OWNERS = [
  "Object", "Object.prototype", "Function.prototype", "Reflect", "Array.prototype", "RegExp", "Error", "JSON",
  "FinalizationRegistry.prototype", "Intl.DateTimeFormat.prototype", "globalThis",
];

/** What stands for whole objects, or has members of node's besides, or is rewritten as agents' modules are. */
const OTHERS = new RegExp(`^(?:${[
  "stackTraceLimit", "prepareStackTrace", "console", "SharedArrayBuffer", "\\w*Array", "DataView", "Atomics", "Symbol",
  "Error", "WeakRef", "WebAssembly", "forEach", "map", "filter", "some", "every", "find\\w*", "reduce\\w*", "flatMap",
].join("|")})$`);

/** @param {any} realm @param {any} owner @param {string | symbol} key @returns {string} how a member looks */
function looksOf(realm, owner, key) {
  const found = realm.Reflect.getOwnPropertyDescriptor(owner, key);
  const parts = ["value", "get", "set"].map((/** @type {string} */ part) => {
    const one = found[part];
    return typeof one === "function" ? `${one.name} ${one.length} ${realm.Reflect.ownKeys(one).length}` : typeof one;
  });
  return [...parts, found.writable, found.enumerable, found.configurable].join(", ");
}

/** @returns {string[]} members of the language that don't look as the engine's */
function differing() {
  return OWNERS.flatMap((path) => {
    const [mine, wanted] = [globalThis, other].map((/** @type {any} */ realm) =>
      path.split(".").reduce((at, key) => at[key], realm));
    return Object.getOwnPropertyNames(wanted).filter((key) => !OTHERS.test(key)).flatMap((key) => {
      const [has, needed] = [looksOf(globalThis, mine, key), looksOf(other, wanted, key)];
      return has === needed ? [] : [`${path}.${key}: ${has} and not ${needed}`];
    });
  });
}

/** @param {() => unknown} way */
function resultOf(way) {
  try {
    return util.inspect(way());
  } catch (thrown) {
    return thrown instanceof Error ? thrown.message : util.inspect(thrown);
  }
}

const asker = new Asker();
asker.refuse = (/** @type {string} */ why) => {
  throw new Error(`refused: ${why}`);
};
const platform = installRealm(asker);
installShown();
const { exports: { agent: ways }, builtins } = loadCode(workerData.url, asker, platform);
const isKnown = (/** @type {object} */ object) => builtins.nameOf(object) !== undefined;
const looks = differing();
const unknown = unknownIn(isKnown);
const kept = [...builtins.names].flatMap(([one, name]) => {
  const state = typeof one === "symbol" ? undefined : stateOf(one);
  return state ? [`${name}: ${state}`] : [];
});
// Clocks refuse while an agent runs.
asker.run = { answer: () => undefined };
/** @type {[string, () => unknown][]} */
const all = Object.entries(ways());
const results = all.map(([name, way]) => [name, resultOf(way)]);
parentPort?.postMessage({ results, looks, unknown, kept, hasChanged: builtins.haveChanged() });
