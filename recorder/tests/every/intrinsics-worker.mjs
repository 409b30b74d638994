// Shows objects of each kind that the engine and node have, as the realm of agents that are learned makes them, and
// with other prototypes.

import { readFileSync } from "node:fs";
import { createContext, runInContext, runInThisContext } from "node:vm";
import { parentPort } from "node:worker_threads";
import { Asker } from "../../lib/every/learning/asking.mjs";
import { installRealm, installShown } from "../../lib/every/learning/realm.mjs";
import { knowFirstPrototypes } from "../../lib/every/state/first-prototypes.mjs";
import { NamedBuiltins } from "../../lib/every/state/named-builtins.mjs";
import { CantShow } from "../../lib/every/state/object-kinds.mjs";
import { Runtime } from "../../lib/every/state/runtime.mjs";
import { Walk } from "../../lib/every/state/walk.mjs";

const language = /** @type {string[]} */ (runInContext("Object.getOwnPropertyNames(globalThis)", createContext({})));
// The agents get none.
const exit = process.exit.bind(process);
const constructors = constructorsOf(globalThis, "");
const asker = new Asker();
installRealm(asker);
installShown();
const runtime = new Runtime();
const builtins = new NamedBuiltins();
builtins.take({});
knowFirstPrototypes(builtins);

/** What rows of the table use. */
const HELPERS = `
const moved = (iterator, count) => { for (let at = 0; at < count; at += 1) iterator.next(); return iterator; };
const wasm = () => new WebAssembly.Module(Uint8Array.of(0, 97, 115, 109, 1, 0, 0, 0));
const thrown = (type, value) => new WebAssembly.Exception(new WebAssembly.Tag({ parameters: [type] }), [value]);
const decoding = () => { const one = new TextDecoder(); one.decode(Uint8Array.of(226), { stream: true }); return one; };
const listening = (one) => { one.addEventListener("a", () => {}); return one; };
const aborted = (one) => { one.abort(); return one; };
const appended = (one) => { one.append("a", "b"); return one; };
`;

const ROWS = new Map(readFileSync(new URL("./intrinsics.txt", import.meta.url), "utf8").trimEnd().split("\n")
  .map((row) => /** @type {[string, string]} */ (/^(.*?): (.*)$/.exec(row)?.slice(1))));

/** @param {unknown} value @returns {string | undefined} undefined if it can't be shown */
function textOf(value) {
  const walk = new Walk(runtime, builtins, {});
  try {
    walk.value(value);
    return walk.text();
  } catch (why) {
    if (!(why instanceof CantShow)) throw why;
    return undefined;
  }
}

const PROTOTYPES = ["one", "Object.setPrototypeOf(one, Object.prototype)", "Object.setPrototypeOf(one, null)",
  "Reflect.setPrototypeOf(one, Array.prototype), one",
  "Object.getOwnPropertyDescriptor(Object.prototype, '__proto__').set.call(one, Error.prototype), one"];

/**
 * @template Result
 * @param {() => Result} body
 * @param {Result} refused what it returns if the realm refuses what the body does
 * @returns {Result}
 */
function unlessRefused(body, refused) {
  try {
    return body();
  } catch (thrown) {
    if (/** @type {any} */ (thrown)?.isBrokenOff !== true) throw thrown;
    asker.isBroken = false;
    asker.refused = undefined;
    return refused;
  }
}

/** @param {string} code of an object @param {string} change that is made to it */
function made(code, change) {
  const text = `"use strict"; ${HELPERS} const one = (${code}); try { return (${change}); } catch { return one; }`;
  return runInThisContext(`(() => { ${text} })()`);
}

/**
 * @param {string} name of a row
 * @param {string} row
 * @returns {{ name: string, change: string, texts: (string | undefined)[] }[]}
 */
function shown(name, row) {
  return PROTOTYPES.map((change) => {
    const texts = row.split(" | ").map((code) => unlessRefused(() => textOf(made(code, change)), undefined));
    return { name, change, texts };
  });
}

/** @param {string} name @returns {boolean} whether this node has it */
function isHere(name) {
  return /^[a-z]/.test(name) || unlessRefused(() => runInThisContext(`typeof ${name}`), "function") === "function";
}

/** @param {any} owner @param {string} prefix @returns {string[]} the names of its constructors */
function constructorsOf(owner, prefix) {
  return Object.getOwnPropertyNames(owner).filter((name) => /^[A-Z]/.test(name)).flatMap((name) => {
    const value = owner[name];
    if (name === "Intl" || name === "WebAssembly") return constructorsOf(value, `${name}.`);
    if (typeof value !== "function") return [];
    return [`${prefix}${name}`];
  });
}

const results = [...ROWS].filter(([name]) => isHere(name)).flatMap(([name, row]) => shown(name, row));
parentPort?.postMessage({ results, rows: [...ROWS.keys()], language, constructors });
exit(0);
