// `process.env` of a thread of a program. As in node its values are texts. Threads that share it by SHARE_ENV have a
// copy each. From then on any change of it ends the run, so the copies stay the same.

import process from "node:process";
import {
  defineProperty, deleteProperty, get, getOwnPropertyDescriptor, has, hasOwn, ownKeys, proxyOf, set, toUpperCase,
} from "../../primordials.mjs";

/** @typedef {Record<string, string | undefined>} Values */

/** Whether the thread shares its `process.env` with another one. */
let isShared = false;

/**
 * The environment of the first thread on Windows ignores the case of names. Those of Workers are copies, and don't.
 * @param {Values} values
 * @returns {Values}
 */
export function ignoringCase(values) {
  /** @param {Values} env @param {string | symbol} key @returns {string | symbol} the name that is there for it */
  const nameOf = (env, key) => {
    if (typeof key !== "string" || hasOwn(env, key)) return key;
    const names = ownKeys(env);
    for (let at = 0; at < names.length; at += 1) {
      const name = names[at];
      if (typeof name === "string" && toUpperCase(name) === toUpperCase(key)) return name;
    }
    return key;
  };
  return proxyOf(values, {
    get: (env, key) => get(env, nameOf(env, key)),
    has: (env, key) => has(env, nameOf(env, key)),
    set: (env, key, value) => set(env, nameOf(env, key), value),
    deleteProperty: (env, key) => deleteProperty(env, nameOf(env, key)),
    defineProperty: (env, key, descriptor) => defineProperty(env, nameOf(env, key), descriptor),
    getOwnPropertyDescriptor: (env, key) => getOwnPropertyDescriptor(env, nameOf(env, key)),
  });
}

/**
 * @param {Values} values
 * @param {boolean} shared whether the thread that has started this one shares it
 * @param {(why: string) => never} refuse ends the run
 * @returns {Values} the `process.env` of this thread
 */
export function envOf(values, shared, refuse) {
  isShared = shared;
  const change = () => {
    if (isShared) refuse("changed process.env, which threads share by SHARE_ENV, which isn't simulated");
  };
  return proxyOf(values, {
    set: (env, key, value) => {
      const text = `${value}`;
      if (get(env, key) !== text) change();
      return set(env, key, text);
    },
    deleteProperty: (env, key) => {
      if (hasOwn(env, key)) change();
      return deleteProperty(env, key);
    },
    defineProperty: (env, key, descriptor) => {
      change();
      return defineProperty(env, key, descriptor);
    },
  });
}

/** @returns {Values} the environment of a thread that shares that of this one */
export function sharedEnv() {
  isShared = true;
  return { ...process.env };
}
