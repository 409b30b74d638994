// A module for WebAssembly whose memory can't grow beyond a number of pages, of one whose memory has no limit.

const HEAD = 8;
const MEMORY_SECTION = 5;

/** @param {number} number @returns {number[]} in the bytes of LEB128 */
function leb(number) {
  return number < 128 ? [number] : [(number & 127) | 128, ...leb(number >>> 7)];
}

/** @param {Uint8Array} bytes @param {number} at @returns {[number, number]} a number in LEB128, and where it ends */
function lebAt(bytes, at) {
  let [number, shift] = [0, 0];
  for (; ; shift += 7) {
    const byte = bytes[at++];
    number |= (byte & 127) << shift;
    if (byte < 128) return [number >>> 0, at];
  }
}

/**
 * @param {Uint8Array} bytes of a module with one memory
 * @param {number} pages that the memory has at most
 * @returns {Uint8Array}
 */
export function limited(bytes, pages) {
  for (let at = HEAD; at < bytes.length; ) {
    const [size, begin] = lebAt(bytes, at + 1);
    if (bytes[at] === MEMORY_SECTION) {
      const [count, flags] = [bytes[begin], bytes[begin + 1]];
      const [least] = lebAt(bytes, begin + 2);
      if (count !== 1 || flags !== 0) throw new Error("the module has no memory without a limit");
      const section = [1, 1, ...leb(least), ...leb(Math.max(least, pages))];
      const memory = [MEMORY_SECTION, ...leb(section.length), ...section];
      return Uint8Array.from([...bytes.slice(0, at), ...memory, ...bytes.slice(begin + size)]);
    }
    at = begin + size;
  }
  throw new Error("the module has no memory");
}
