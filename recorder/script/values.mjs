// The values of elements by their kinds, as JavaScript writes them. It runs in pages too, so it imports nothing.

/** @typedef {{ new (bytes: ArrayBufferLike): ArrayLike<number | bigint>, BYTES_PER_ELEMENT: number }} Kind */

/** @type {Readonly<Record<string, Kind>>} */
const ARRAYS = Object.freeze({
  Int8: Int8Array, Uint8: Uint8Array, Uint8Clamped: Uint8ClampedArray, Int16: Int16Array, Uint16: Uint16Array,
  Int32: Int32Array, Uint32: Uint32Array, Float32: Float32Array, Float64: Float64Array, BigInt64: BigInt64Array,
  BigUint64: BigUint64Array,
});

/** The kind that no script has, and not every engine. */
const HALF = "Float16";

/** The names of the kinds, for a pattern. */
export const ANY_KIND = [...Object.keys(ARRAYS), HALF].join("|");

/** @param {string} kind its name @returns {number} how many bytes an element has */
export const sizeOfKind = (kind) => ARRAYS[kind === HALF ? "Uint16" : kind].BYTES_PER_ELEMENT;

/** @param {number} bits of a Float16: a sign, 5 bits of its exponent and 10 of its fraction @returns {number} */
function halfOf(bits) {
  const sign = bits >> 15 === 0 ? 1 : -1;
  const exponent = (bits >> 10) & 31;
  const fraction = bits & 1_023;
  if (exponent === 31) return fraction === 0 ? sign * Infinity : NaN;
  const value = exponent === 0 ? fraction * 2 ** -24 : (1_024 + fraction) * 2 ** (exponent - 25);
  return sign * value;
}

/** @param {number | bigint} value @returns {string} as JavaScript writes it: 0.25, -0, 5n */
function valueText(value) {
  if (typeof value === "bigint") return `${value}n`;
  return Object.is(value, -0) ? "-0" : `${value}`;
}

/**
 * The value of an element.
 * @param {string} kind
 * @param {Uint8Array} bytes
 * @param {number} [from] the element's first byte
 * @returns {string} as JavaScript writes it
 */
export function elementText(kind, bytes, from = 0) {
  const own = bytes.slice(from, from + sizeOfKind(kind)).buffer;
  return valueText(kind === HALF ? halfOf(new Uint16Array(own)[0]) : new ARRAYS[kind](own)[0]);
}

/**
 * The bytes that a store of a script writes.
 * @param {string} kind of its view: a kind of whole numbers
 * @param {number | bigint | string} operand a string of digits is a BigInt
 * @returns {Uint8Array}
 */
export function storedBytes(kind, operand) {
  const bytes = new Uint8Array(sizeOfKind(kind));
  const raw = BigInt.asUintN(8 * bytes.length, BigInt(operand));
  for (let at = 0; at < bytes.length; at += 1) bytes[at] = Number((raw >> BigInt(8 * at)) & 255n);
  return bytes;
}
