// How the functions look that a watched realm replaces: their names, their lengths, and what else they have.

import assert from "node:assert";
import childProcess from "node:child_process";
import crypto from "node:crypto";
import fs from "node:fs";
import util from "node:util";
import v8 from "node:v8";
import zlib from "node:zlib";

const OWNERS = {
  assert, childProcess, crypto, fs, util, v8, zlib, Buffer, console, WebAssembly,
  promises: fs.promises, types: util.types, hashes: crypto.Hash.prototype, buffers: Buffer.prototype,
  arrays: Object.getPrototypeOf(Int8Array.prototype), views: DataView.prototype, shared: SharedArrayBuffer.prototype,
  decoders: TextDecoder.prototype, encoders: TextEncoder.prototype, global: { structuredClone },
};

/** What a function may have besides: its prototype, which a method lacks, and a class. */
const isLeftOut = (key) => key === "prototype" || key === "AssertionError";

/** @param {Function} made @returns {unknown[][]} its properties */
const propertiesOf = (made) => Reflect.ownKeys(made).filter((key) => !isLeftOut(key)).map((key) => {
  const { value, writable, enumerable, configurable } = Object.getOwnPropertyDescriptor(made, key);
  return [String(key), typeof value === "function" ? "function" : value, writable, enumerable, configurable];
});

/** @returns {Record<string, string>} by the functions' places, for each that isn't a class */
export function looks() {
  const found = {};
  for (const [name, owner] of Object.entries(OWNERS)) {
    for (const [key, { value }] of Object.entries(Object.getOwnPropertyDescriptors(owner))) {
      if (typeof value === "function" && /^[a-z]/.test(key) && key !== "constructor") {
        found[`${name}.${key}`] = util.inspect(propertiesOf(value));
      }
    }
  }
  return found;
}
