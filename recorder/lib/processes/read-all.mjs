// What can be read of a file, also of a pipe that has nothing yet. Node's own function fails there.

import { readSync } from "node:fs";
import { sleep } from "./sleep.mjs";

const CHUNK = 65_536;
const WAIT_MILLISECONDS = 10;

/**
 * @callback ReadBytes
 * @param {number} file
 * @param {Uint8Array} bytes
 * @returns {number} how many bytes were read; 0: there are no more
 */

/**
 * Reads once. It waits for bytes if none are there yet: a standard input that doesn't block reports EAGAIN then.
 * @param {number} file
 * @param {Uint8Array} bytes
 * @param {ReadBytes} read
 * @returns {number}
 */
function countRead(file, bytes, read) {
  for (;;) {
    try {
      return read(file, bytes);
    } catch (error) {
      const { code } = /** @type {any} */ (error);
      // So Windows reports the end of a pipe.
      if (code === "EOF") return 0;
      if (code !== "EAGAIN") throw error;
      sleep(WAIT_MILLISECONDS);
    }
  }
}

/**
 * Reads a file to its end.
 * @param {number} file by its number, as 0 for standard input
 * @param {number} [most] how many bytes are read at most
 * @param {ReadBytes} [read] reads once
 * @returns {Buffer}
 * @throws {Error} of the system
 */
export function readAll(file, most = Infinity, read = readSync) {
  const parts = [];
  let size = 0;
  while (size < most) {
    const bytes = Buffer.alloc(Math.min(CHUNK, most - size));
    const count = countRead(file, bytes, read);
    if (count === 0) break;
    parts.push(bytes.subarray(0, count));
    size += count;
  }
  return Buffer.concat(parts, size);
}
