// The bytes of a module of WebAssembly: numbers are read and written in LEB128.

const { Uint8Array: Bytes } = globalThis;
// Programs for browsers have no Buffer.
const { from: bufferFrom } = Buffer;

/** Reads bytes from a position on. */
export class ByteReader {
  /** @param {Uint8Array} bytes @param {number} [at] the next byte's position @param {number} [end] behind the last */
  constructor(bytes, at = 0, end = bytes.length) {
    this.bytes = bytes;
    this.at = at;
    this.end = end;
  }

  /** @returns {number} the next byte */
  byte() {
    if (this.at >= this.end) throw new RangeError("the module ends in its middle");
    this.at += 1;
    return this.bytes[this.at - 1];
  }

  /** @returns {number} the next number, which isn't negative */
  number() {
    let value = 0;
    for (let weight = 1; ; weight *= 128) {
      const byte = this.byte();
      value += (byte % 128) * weight;
      if (byte < 128) return value;
    }
  }

  /** @returns {number} the next number of 32 bits with a sign */
  signed() {
    let value = 0;
    let shift = 0;
    let byte;
    do {
      byte = this.byte();
      if (shift < 32) value |= (byte & 127) << shift;
      shift += 7;
    } while (byte > 127);
    return shift < 32 && (byte & 64) !== 0 ? value | (-1 << shift) : value;
  }

  /** Passes over a number of any length. */
  skipNumber() {
    while (this.byte() > 127);
  }

  /** @param {number} count @returns {Uint8Array} the next bytes */
  take(count) {
    if (this.at + count > this.end) throw new RangeError("the module ends in its middle");
    this.at += count;
    return this.bytes.subarray(this.at - count, this.at);
  }

  /** @returns {string} the next name */
  name() {
    return bufferFrom(this.take(this.number())).toString("utf8");
  }
}

/** @param {number} value not negative @returns {number[]} its bytes */
export function number(value) {
  const bytes = [];
  let rest = value;
  for (; rest > 127; rest = Math.floor(rest / 128)) bytes.push((rest % 128) | 128);
  return [...bytes, rest];
}

/** @param {number} value of 32 bits, with a sign @returns {number[]} its bytes */
export function signed(value) {
  const bytes = [];
  let rest = value | 0;
  for (; rest < -64 || rest > 63; rest >>= 7) bytes.push((rest & 127) | 128);
  return [...bytes, rest & 127];
}

/** @param {string} text @returns {number[]} its length and its bytes */
export function name(text) {
  const bytes = bufferFrom(text);
  return [...number(bytes.length), ...bytes];
}

/** @param {number[][]} items @returns {number[]} their number and the items */
export const vector = (items) => [...number(items.length), ...items.flat()];

/** Collects bytes, however many. */
export class ByteWriter {
  #bytes = new Bytes(1024);

  length = 0;

  /** @param {Uint8Array | number[]} more */
  add(more) {
    const length = this.length + more.length;
    if (length > this.#bytes.length) {
      const bytes = new Bytes(2 * length);
      bytes.set(this.taken());
      this.#bytes = bytes;
    }
    this.#bytes.set(more, this.length);
    this.length = length;
  }

  /** @param {Uint8Array} content @param {number[]} [before] what comes before its length */
  addSized(content, before = []) {
    this.add([...before, ...number(content.length)]);
    this.add(content);
  }

  /** @returns {Uint8Array} the bytes so far */
  taken() {
    return this.#bytes.subarray(0, this.length);
  }
}
