// What is in a message, in a few words, for people. It reads nothing that is watched, and runs none of the program's
// code.

import { getOwnPropertyDescriptor, isArray, ownKeys, uncurried } from "../../primordials.mjs";
import { unwrapped } from "../../agent/ordinary/watched.mjs";
import { deserializeError } from "../node/internals.mjs";
import { KIND } from "./ports.mjs";

const { getPrototypeOf } = Object;
const { isView } = ArrayBuffer;
const { Error: EngineError } = globalThis;
const titleOf = uncurried(Object.prototype.toString);

/** More than so many characters of a string, parts of an object, or objects in each other aren't shown. */
const MOST_CHARACTERS = 40;
const MOST_PARTS = 5;
const MOST_DEPTH = 2;

/** @param {string} text */
const cut = (text) => (text.length > MOST_CHARACTERS ? `${text.slice(0, MOST_CHARACTERS)}..` : text);

/** @param {object} value @returns {string} the name of its class */
const className = (value) => titleOf(value).slice("[object ".length, -1);

/** @param {any} value @param {number} depth in how many others it is @returns {string} */
function objectText(value, depth) {
  if (value instanceof EngineError) return cut(`${value.name}: ${value.message}`);
  const isPlain = getPrototypeOf(value) === Object.prototype || getPrototypeOf(value) === null;
  if (isView(value) || (!isArray(value) && !isPlain)) return className(value);
  if (depth === MOST_DEPTH) return isArray(value) ? "[..]" : "{..}";
  const keys = ownKeys(value).filter((/** @type {unknown} */ key) => typeof key === "string" && key !== "length");
  const parts = keys.slice(0, MOST_PARTS).map((/** @type {any} */ key) => {
    const own = getOwnPropertyDescriptor(value, key);
    const text = own !== undefined && "value" in own ? valueText(own.value, depth + 1) : "..";
    return isArray(value) ? text : `${key}: ${text}`;
  });
  const all = (keys.length > MOST_PARTS ? [...parts, ".."] : parts).join(", ");
  return isArray(value) ? `[${all}]` : `{ ${all} }`;
}

/** @param {any} value @param {number} [depth] in how many others it is @returns {string} */
function valueText(value, depth = 0) {
  const bare = unwrapped(value);
  if (typeof bare === "string") return JSON.stringify(cut(bare));
  if (typeof bare === "bigint") return `${bare}n`;
  return typeof bare === "object" && bare !== null ? objectText(bare, depth) : String(bare);
}

/**
 * @param {number} kind one of `KIND`
 * @param {any} value
 * @returns {string} what is in a message; nothing if that can't be shown
 */
export function messageText(kind, value) {
  try {
    if (kind === KIND.EXIT) return `exit with code ${value}`;
    if (kind === KIND.ERROR) return `error, ${valueText(deserializeError(value))}`;
    if (kind === KIND.ONLINE) return "online";
    return kind === KIND.CLOSE ? "close" : valueText(value);
  } catch {
    return "";
  }
}
