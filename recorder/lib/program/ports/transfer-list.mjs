// What a message is sent with, to be transferred: the list of it, and what isn't taken.

import { apply, copied, isArray } from "../../primordials.mjs";
import { FileHandle } from "../sync/file-handle.mjs";
import { nodeError } from "../node/node-error.mjs";

const { DOMException: EngineException } = /** @type {any} */ (globalThis);

/** @param {any} items @returns {any[]} a list of them: node, too, asks an array for no iterator */
export const itemsOf = (items) => (isArray(items) ? copied(items) : [...items]);

/** @param {any} value @returns {boolean} */
const isObject = (value) => typeof value === "function" || (typeof value === "object" && value !== null);

/** @param {any} value @returns {any[] | undefined} what it has; undefined: node finds nothing there to go through */
function listed(value) {
  if (!isObject(value)) return undefined;
  if (isArray(value)) return copied(value);
  const { [Symbol.iterator]: iterate } = value;
  if (typeof iterate !== "function") return undefined;
  const iterator = apply(iterate, value, []);
  if (!isObject(iterator) || typeof iterator.next !== "function") return undefined;
  return [...{ [Symbol.iterator]: () => iterator }];
}

/**
 * @param {any} transfer as `postMessage` gets it
 * @returns {any[]}
 * @throws {TypeError}
 */
export function transferredOf(transfer) {
  if (transfer === null || transfer === undefined) return [];
  if (!isObject(transfer)) fail("transferList");
  const list = listed(transfer);
  if (list !== undefined) return list;
  const { transfer: asked } = transfer;
  return asked === undefined ? [] : listed(asked) ?? fail("options.transfer");
}

/** @param {string} name of an argument @returns {never} */
function fail(name) {
  throw nodeError("ERR_INVALID_ARG_TYPE", `Optional ${name} argument must be an iterable`, {}, TypeError);
}

/** What node transfers by ports of its own, whose messages would come by no loop of the run. */
const BY_OWN_PORTS = Object.freeze(["ReadableStream", "WritableStream", "TransformStream", "FileHandle"]);

/** @param {any[]} list of what is transferred @param {(why: string) => never} refuse */
export function demandTransferable(list, refuse) {
  // The program may have replaced the iterators and functions of arrays.
  for (let at = 0; at < list.length; at += 1) {
    for (let which = 0; which < BY_OWN_PORTS.length; which += 1) {
      const name = BY_OWN_PORTS[which];
      if (isA(list[at], name)) refuse(`transferred a ${name}, which isn't simulated`);
    }
  }
}

/** @param {any} value @param {string} name of a class of node's or of the recorder's @returns {boolean} */
const isA = (value, name) =>
  value instanceof (name === "FileHandle" ? FileHandle : /** @type {any} */ (globalThis)[name]);

/**
 * Throws, as node does, if one of the ports of a list can't be transferred.
 * @param {any[]} ports
 * @param {any} source the port that sends them
 * @param {(port: any) => boolean} isClosed
 * @throws {DOMException}
 */
export function demandOpen(ports, source, isClosed) {
  for (let at = 0; at < ports.length; at += 1) {
    if (ports[at] === source) throw notCloned("Transfer list contains source port");
    if (isClosed(ports[at])) throw notCloned("MessagePort in transfer list is already detached");
  }
}

/** @param {string} message @returns {DOMException} */
const notCloned = (message) => new EngineException(message, "DataCloneError");
