// Node's own internal files, whole and unchanged, over the globals of the thread that asks for them. Node loads them
// before any program, so they keep the engine's Atomics; loaded again here they get those that the program has.

import { readFileSync } from "node:fs";
import { createRequire, isBuiltin } from "node:module";
import { fileURLToPath } from "node:url";
import { compileFunction } from "node:vm";
import { FETCHED } from "../folder.mjs";

const WRAPPED = ["exports", "require", "module", "process", "internalBinding", "primordials"];
const publicRequire = createRequire(import.meta.url);

/** @param {string} name of an internal file, such as `internal/worker` @returns {string} where it was fetched to */
const pathOf = (name) => fileURLToPath(new URL(`node/${name}.js`, FETCHED));

/**
 * Something that a file asks for when it is loaded, and that must not be used: it throws with its name.
 * @param {string} name
 * @returns {any}
 */
function unused(name) {
  function refuse() {
    throw new Error(`nothing stands in for ${name}`);
  }
  const get = (/** @type {object} */ _, /** @type {string | symbol} */ key) =>
    typeof key === "symbol" ? undefined : unused(`${name}.${key}`);
  return new Proxy(refuse, { get, construct: refuse });
}

/**
 * @typedef {object} Given what stands in for the parts of node that aren't loaded again
 * @property {string[]} files the names of node's own files that are loaded again
 * @property {Record<string, any>} modules by their names
 * @property {Record<string, any>} [bindings] what `internalBinding` returns, by its argument
 * @property {object} [process] the `process` that the files see
 */

/** @returns {object} node's copies of the language's functions, made by node's own file from this thread's globals */
function primordialsOf() {
  const primordials = {};
  const path = pathOf("internal/per_context/primordials");
  compileFunction(readFileSync(path, "utf8"), ["primordials"], { filename: path })(primordials);
  return primordials;
}

/**
 * Node's own `require`, as its internal files have it.
 * @param {Given} given
 * @returns {(name: string) => any}
 */
export function internals({ files, modules, bindings = {}, process = globalThis.process }) {
  const primordials = primordialsOf();
  const loaded = new Map(Object.entries({ "internal/util/debuglog": { debuglog: () => () => {} }, ...modules }));
  const internalBinding = (/** @type {string} */ name) => bindings[name] ?? unused(`internalBinding("${name}")`);
  return function require(name) {
    if (loaded.has(name)) return loaded.get(name);
    if (!files.includes(name)) return isBuiltin(name) ? publicRequire(name) : unused(name);
    const path = pathOf(name);
    const module = { exports: {} };
    loaded.set(name, module.exports);
    const code = compileFunction(readFileSync(path, "utf8"), WRAPPED, { filename: path });
    code(module.exports, require, module, process, internalBinding, primordials);
    loaded.set(name, module.exports);
    return module.exports;
  };
}
