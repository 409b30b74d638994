// What stands for functions of `node:util`: the functions that some make keep nothing that isn't shown, and the texts
// that others make are those of a run.

import nodeProcess from "node:process";
import nodeUtil from "node:util";
import { methodOf, replace, replaceEach } from "../../agent/ordinary/patch.mjs";
import { apply, defineProperty, getPrototypeOf, hasOwn, isObject, likeEngine } from "../../primordials.mjs";
import { noteMade } from "../state/bound-functions.mjs";
import { showNumberInText } from "./given-number.mjs";

/** @type {any} */
const util = nodeUtil;

/** @returns {Function} a log of a section that isn't asked for: it prints nothing */
function silentLog() {
  const logger = noteMade((/** @type {unknown[]} */ ..._words) => {}, "debuglog");
  defineProperty(logger, "name", { value: "logger", configurable: true });
  const get = noteMade({ get: () => false }.get, "debuglog.enabled");
  defineProperty(logger, "enabled", { get, enumerable: true, configurable: true });
  return logger;
}

const { promisify: { custom }, types: { isProxy } } = util;

/** @param {unknown} fn @returns {boolean} whether it may say itself what its version with a promise is */
function hasOwnVersion(fn) {
  for (let at = /** @type {any} */ (fn); at !== null; at = getPrototypeOf(at)) {
    if (isProxy(at) || hasOwn(at, custom)) return true;
  }
  return false;
}

/** @param {Function} engine */
const promisifying = (engine) => methodOf((self, given) => {
  const isNoted = typeof given[0] === "function" && !hasOwnVersion(given[0]);
  const made = apply(engine, self, given);
  return isNoted ? noteMade(made, "promisify", given[0]) : made;
}, engine);

/** @param {Function} engine what makes a text of objects */
const showing = (engine) => methodOf((self, given) => {
  for (let at = 0; at < given.length; at += 1) if (isObject(given[at])) showNumberInText();
  return apply(engine, self, given);
}, engine);

/**
 * @param {(what: string) => never} refuse
 * @returns {Record<string, Function>} by their names
 */
export function utilMakers(refuse) {
  const { debuglog: engineLog, deprecate: engineDeprecate } = util;
  const debuglog = likeEngine((/** @type {unknown} */ section, /** @type {unknown} */ made) => {
    const isSilent = typeof section === "string" && made === undefined && !nodeProcess.env.NODE_DEBUG;
    return isSilent ? silentLog() : refuse("it uses `util.debuglog` with NODE_DEBUG or with a function");
  }, engineLog);
  const deprecate = likeEngine((/** @type {unknown[]} */ ...given) =>
    noteMade(apply(engineDeprecate, util, given), "deprecate", given[0]), engineDeprecate);
  const { format, formatWithOptions, inspect, promisify } = util;
  const stands = { debug: debuglog, debuglog, deprecate, format, formatWithOptions, inspect, promisify };
  replace(stands, "promisify", promisifying);
  replaceEach(stands, ["format", "formatWithOptions", "inspect"], showing);
  return stands;
}
