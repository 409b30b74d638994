// The atomic instructions of WebAssembly that have values, each in its seven variants, as calls of Atomics.

import { ATOMICS, VARIANTS } from "./slots.mjs";

const { BigInt: EngineBigInt, Number: EngineNumber } = globalThis;
const { asUintN } = EngineBigInt;

/** @typedef {import("./wasm-accesses.mjs").WasmAccesses} WasmAccesses */
/** @typedef {(value: any) => any} Conversion */

/** @type {Conversion} */
const same = (value) => value;

/**
 * How a variant's values become elements of its view, and these values again.
 * @param {string} variant
 * @returns {{ size: number, element: Conversion, value: Conversion }}
 */
function conversionsOf(variant) {
  const size = EngineNumber(variant[1]);
  if (size === 8) return { size, element: (value) => asUintN(64, value), value: same };
  const bits = 8 * size;
  if (variant[0] === "l") return { size, element: (value) => EngineNumber(asUintN(bits, value)), value: EngineBigInt };
  return { size, element: size === 4 ? (value) => value >>> 0 : (value) => value & (2 ** bits - 1), value: same };
}

/**
 * One access in one variant. After its values it gets what is added to the address, and where its instruction is.
 * @param {WasmAccesses} access
 * @param {string} name
 * @param {string} variant
 * @returns {(...given: any[]) => unknown}
 */
function atomicFunction(access, name, variant) {
  const { atomics } = access.context;
  const { size, element, value } = conversionsOf(variant);
  const view = () => access.views[size];
  if (name === "load") {
    return (address, offset, where) => {
      const index = access.aligned(address, offset, size, where);
      return value(atomics.load(view(), index));
    };
  }
  if (name !== "compareExchange") {
    return (address, given, offset, where) => {
      const index = access.aligned(address, offset, size, where);
      return value(atomics[name](view(), index, element(given)));
    };
  }
  return (address, expected, given, offset, where) => {
    const index = access.aligned(address, offset, size, where);
    return value(atomics.compareExchange(view(), index, element(expected), element(given)));
  };
}

/**
 * @param {WasmAccesses} access
 * @returns {Record<string, (...given: any[]) => unknown>} by the names of slots
 */
export const atomicFunctions = (access) => Object.fromEntries(Object.keys(ATOMICS).flatMap((name) =>
  VARIANTS.map((variant) => [`${name} ${variant}`, atomicFunction(access, name, variant)])));
