// What agents find of node's in their realm: names that keep nothing are there, others may be named, and refuse when
// they are reached.

import { EventEmitter } from "node:events";
import { createRequire } from "node:module";
import nodeProcess from "node:process";
import nodeUtil from "node:util";
import { isCalledByAgents } from "../../agent/frames.mjs";
import {
  apply, defineProperty, getOwnPropertyDescriptor, isObject, likeEngine, ownKeys, put, setPrototypeOf,
} from "../../primordials.mjs";
import { methodOf, replace, replaceEach } from "../../agent/ordinary/patch.mjs";
import { checksSelf } from "./engine-writes.mjs";
import { utilMakers } from "./util-makers.mjs";
import { HARMLESS_GLOBALS, LANGUAGE, OF_MODULES, OF_PROCESS, OF_WEB_CRYPTO, SAYS } from "./platform-names.mjs";
import { StandIns } from "./stand-ins.mjs";

/** @typedef {import("./stand-ins.mjs").TakenMembers} TakenMembers */
/** @typedef {import("./stand-ins.mjs").EndAgents} EndAgents */

/** @type {("apply" | "construct")[]} what refuses of a function that only may not be called */
const CALLED = ["apply", "construct"];

/** @type {any} what the declarations of node here don't have */
const util = nodeUtil;

/** @type {any} */
const realm = globalThis;

const required = createRequire(import.meta.url);

const WRITES_SELF = [
  "addListener", "off", "on", "once", "prependListener", "prependOnceListener", "removeAllListeners", "removeListener",
  "setMaxListeners",
];

/** @param {string[] | "all"} names @returns {TakenMembers} */
const taken = (names) => (names === "all" ? names : new Set(names));

export class NodePlatform {
  /** @param {EndAgents} refuse */
  constructor(refuse) {
    this.refuse = refuse;
    this.standIns = new StandIns(refuse);
    /** @type {Map<string, object>} what imports of node's modules have, by their names */
    this.modules = new Map();
  }

  /** Puts what stands for node's objects in their places. It is called once. @returns {this} */
  install() {
    // A warning would be printed when the thread has nothing else to do.
    /** @type {any} */ (nodeProcess).noDeprecation = true;
    this.#closeCode();
    this.#closeClocks();
    this.#closeNode();
    this.console = this.#console();
    this.process = this.#process();
    const { performance: clock } = realm;
    const once = taken(["now", "timeOrigin"]);
    this.performance = this.standIns.object(clock, "performance", once);
    this.crypto = this.standIns.object(realm.crypto, "crypto", taken(OF_WEB_CRYPTO));
    /** @type {Record<string, object>} */
    const own = {
      console: this.console, crypto: this.crypto, performance: this.performance, process: this.process,
    };
    const known = new Set(LANGUAGE);
    for (const name of Object.getOwnPropertyNames(globalThis)) {
      if (known.has(name)) continue;
      const isHarmless = HARMLESS_GLOBALS.includes(name);
      this.standIns.global(name, own[name] ?? (isHarmless ? realm[name] : undefined));
    }
    // Node may have put some there only now.
    const symbols = Object.getOwnPropertySymbols(globalThis).filter((key) => key !== Symbol.toStringTag);
    for (const key of symbols) this.standIns.global(key);
    return this;
  }

  /** Code that is made of a text can't be shown. */
  #closeCode() {
    /** @type {any} what the functions inherit from whose constructors inherit from that of all functions */
    const all = [function made() {}, async function made() {}, function* made() {}, async function* made() {}];
    /** @type {any} */
    let ofAll;
    for (const one of all) {
      const prototype = /** @type {object} */ (Reflect.getPrototypeOf(one));
      const found = /** @type {PropertyDescriptor} */ (getOwnPropertyDescriptor(prototype, "constructor"));
      const value = this.standIns.of(found.value, found.value.name, CALLED);
      defineProperty(prototype, "constructor", { ...found, value });
      if (ofAll === undefined) ofAll = value;
      else setPrototypeOf(found.value, ofAll);
    }
    put(globalThis, "Function", ofAll);
    put(globalThis, "eval", this.standIns.of(globalThis.eval, "eval", CALLED));
    const registry = FinalizationRegistry.prototype;
    const name = "FinalizationRegistry.prototype.unregister";
    put(registry, "unregister", this.standIns.of(registry.unregister, name, CALLED));
  }

  /** Without a date, the time of now is shown. */
  #closeClocks() {
    const { prototype } = Intl.DateTimeFormat;
    const needsDate = (/** @type {unknown} */ date) => {
      if (date === undefined) this.refuse("it looks at a clock");
    };
    replace(prototype, "formatToParts", (engine) => methodOf((self, given) => {
      needsDate(given[0]);
      return apply(engine, self, given);
    }, engine));
    /** @type {WeakMap<Function, Function>} */
    const made = new WeakMap();
    const found = /** @type {{ get: Function }} */ (getOwnPropertyDescriptor(prototype, "format"));
    const get = methodOf((self) => {
      const bound = apply(found.get, self, []);
      const known = made.get(bound) ?? likeEngine((/** @type {unknown} */ date) => {
        needsDate(date);
        return bound(date);
      }, bound);
      made.set(bound, known);
      return known;
    }, found.get);
    defineProperty(prototype, "format", { .../** @type {any} */ (found), get });
  }

  /** Members of node's classes and functions that keep something. */
  #closeNode() {
    const { refuse, standIns } = this;
    /** @type {[any, string, string[]][]} */
    const closed = [
      [Event.prototype, "Event.prototype", ["timeStamp"]],
      [AbortSignal, "AbortSignal", ["timeout"]],
      [URL, "URL", ["createObjectURL", "revokeObjectURL"]],
    ];
    for (const [owner, name, keys] of closed) {
      standIns.members(owner, name, new Set(ownKeys(owner).filter((key) => !keys.includes(String(key)))));
    }
    replace(Event.prototype, util.inspect.custom, (engine) => methodOf((self, given) =>
      (given[0] < 0 ? apply(engine, self, given) : refuse("it shows the time of an event")), engine));
    replace(TextDecoder.prototype, "decode", (engine) => methodOf((self, given) => {
      // The decoder would keep what it has decoded in part.
      if (given[1]?.stream) refuse("it decodes a text in parts");
      return apply(engine, self, given.length === 0 ? [] : [given[0]]);
    }, engine));
    replaceEach(EventEmitter.prototype, WRITES_SELF, checksSelf);
    replaceEach(EventEmitter, ["init"], checksSelf);
    closeSetter(EventEmitter, "defaultMaxListeners", () => refuse("it sets `EventEmitter.defaultMaxListeners`"));
    const { Buffer: bytes } = realm;
    // Else each has a place of its own in memory that they share.
    bytes.poolSize = 0;
    for (const name of /** @type {const} */ (["allocUnsafe", "allocUnsafeSlow"])) {
      const engine = bytes[name];
      const made = likeEngine(/** @type {(size: number) => Buffer} */ ((size) => {
        if (isCalledByAgents(made)) refuse(`it uses \`Buffer.${name}\`, whose bytes may be any`);
        return apply(engine, bytes, [size]);
      }), engine);
      defineProperty(bytes, name, { .../** @type {object} */ (getOwnPropertyDescriptor(bytes, name)), value: made });
    }
  }

  #console() {
    const real = realm.console;
    /** @type {Record<string, Function>} */
    const given = {};
    for (const name of SAYS) {
      if (typeof real[name] !== "function") continue;
      /** @type {(...words: unknown[]) => void} */
      const said = (...words) => {
        const shown = shownWords(name, words);
        let isShown = false;
        for (let at = 0; at < shown.length; at += 1) isShown ||= isObject(shown[at]);
        // What shows them may be the agents' own code.
        if (isShown) util.formatWithOptions({}, ...shown);
      };
      given[name] = likeEngine(said, real[name]);
    }
    return this.standIns.object(real, "console", new Set(), given);
  }

  #process() {
    const real = nodeProcess;
    const silent = {
      /** @param {unknown} chunk */
      write: (chunk) => {
        // Its bytes are read.
        if (chunk instanceof Uint8Array) realm.Buffer.from(chunk);
        else if (typeof chunk !== "string") this.refuse("it writes something else than a text or bytes");
        return true;
      },
    };
    const stream = (/** @type {string} */ name) => this.standIns.object(/** @type {any} */ (real)[name],
      `process.${name}`, new Set(), silent);
    const given = { argv: [...real.argv], env: { ...real.env }, stderr: stream("stderr"), stdout: stream("stdout") };
    const prototype = Object.create(EventEmitter.prototype);
    return this.standIns.object(real, "process", taken(OF_PROCESS), given, Object.create(prototype));
  }

  /** @returns {Record<string, object>} objects that only getters and callbacks lead to, by their names */
  others() {
    /** @type {Record<string, object>} */
    const found = { ...this.standIns.globals, "util.inspect.defaultOptions": util.inspect.defaultOptions };
    const shown = {
      /** @param {number} _depth @param {object} _options @param {any} inspect */
      [util.inspect.custom]: (_depth, _options, inspect) => {
        found.inspect = inspect;
        return "";
      },
    };
    util.inspect(shown);
    return found;
  }

  /**
   * @param {string} url of a module of node's
   * @returns {any} what an import of it has
   */
  module(url) {
    const known = this.modules.get(url);
    if (known !== undefined) return known;
    const made = this.#namespace(url.slice("node:".length));
    this.modules.set(url, made);
    return made;
  }

  /** @param {string} name of a module of node's */
  #namespace(name) {
    const exported = required(`node:${name}`);
    const what = taken(OF_MODULES[name] ?? []);
    if (name === "process") return namespaceOf(this.process);
    if (name === "console") return namespaceOf(this.console);
    if (typeof exported !== "function") {
      return namespaceOf(this.standIns.object(exported, `node:${name}`, what, this.#given(name)));
    }
    // The function itself is what the module exports.
    this.standIns.members(exported, `node:${name}`, what);
    return namespaceOf(exported);
  }

  /** @param {string} name of a module @returns {Record<string, unknown>} what is in the place of some of its members */
  #given(name) {
    if (name === "perf_hooks") return { performance: this.performance };
    if (name === "crypto") return { webcrypto: this.crypto };
    // A thread that was handed nothing has null.
    if (name === "worker_threads") return { workerData: null };
    return name === "util" ? utilMakers(this.refuse) : {};
  }
}

/** @param {unknown[]} words with a label first, of which a text is made @returns {unknown[]} */
const labelOf = ([label]) => [`${label}`];

/** @type {Record<string, (words: unknown[]) => unknown[]>} what functions of a console show, if that isn't all */
const SHOWN_WORDS = {
  assert: ([isRight, ...words]) => (isRight ? [] : words),
  count: labelOf,
  countReset: labelOf,
  dir: ([object, options]) => [util.inspect(object, { customInspect: false, .../** @type {object} */ (options) })],
  time: labelOf,
  timeEnd: labelOf,
  timeLog: labelOf,
  timeStamp: () => [],
};

/** @param {string} name of a function of a console @param {unknown[]} words @returns {unknown[]} those that it shows */
const shownWords = (name, words) => SHOWN_WORDS[name]?.(words) ?? words;

/** @param {any} owner @param {string} key of an accessor @param {() => never} refuse in place of its setter */
function closeSetter(owner, key, refuse) {
  const found = getOwnPropertyDescriptor(owner, key);
  if (found?.set !== undefined) defineProperty(owner, key, { ...found, set: likeEngine(refuse, found.set) });
}

const OF_FUNCTIONS = ["length", "name", "prototype"];

/** @param {any} exported of a module @returns {object} what an import of it has, with its names in order */
function namespaceOf(exported) {
  const made = Object.create(null);
  const names = ownKeys(exported).filter((key) =>
    typeof key === "string" && !(typeof exported === "function" && OF_FUNCTIONS.includes(key)));
  for (const name of [...new Set([...names, "default"])].sort()) {
    const found = name === "default" ? { value: exported, enumerable: true } : getOwnPropertyDescriptor(exported, name);
    defineProperty(made, name, /** @type {PropertyDescriptor} */ (found));
  }
  defineProperty(made, Symbol.toStringTag, { value: "Module" });
  return made;
}
