// The texts of the language's functions and of node's: what stands for one of them has its text, name and length.
import buffer from "node:buffer";
import crypto from "node:crypto";
import fs from "node:fs";
import threads from "node:worker_threads";
import zlib from "node:zlib";

const seen = new Set();
const texts = new Map();

// Each member that a program can reach by strings. Of those by symbols only the language's own are there in both.
const WELL_KNOWN = new Set(Object.getOwnPropertyNames(Symbol).map((name) => Symbol[name]));
const keysOf = (owner) => Reflect.ownKeys(owner).filter((key) => typeof key === "string" || WELL_KNOWN.has(key));

function walk(name, value, depth) {
  if ((typeof value !== "object" && typeof value !== "function") || value === null || seen.has(value)) return;
  seen.add(value);
  if (typeof value === "function") texts.set(name, [value.name, value.length, `${value}`].join(" "));
  if (depth === 0) return;
  for (const key of keysOf(value)) {
    const { value: member, get, set } = Object.getOwnPropertyDescriptor(value, key);
    for (const each of [member, get, set]) walk(`${name}.${String(key)}`, each, depth - 1);
  }
}

const LANGUAGE = [
  "Array", "ArrayBuffer", "Atomics", "BigInt64Array", "DataView", "Date", "FinalizationRegistry", "Float64Array",
  "Function", "Int32Array", "Map", "Math", "Object", "Promise", "Reflect", "SharedArrayBuffer", "Uint8Array", "WeakMap",
  "WeakRef", "WebAssembly", "queueMicrotask", "setTimeout", "setImmediate", "structuredClone",
];
for (const name of LANGUAGE) walk(name, globalThis[name], 3);
// Of these node has getters, which are gone once something is put in their place.
const GETTERS = ["fips", "prng", "pseudoRandomBytes", "rng", "getDiffieHellman", "createDiffieHellmanGroup"];
const rest = Object.entries(Object.getOwnPropertyDescriptors(crypto)).filter(([name]) => !GETTERS.includes(name));
const ofCrypto = Object.defineProperties({}, Object.fromEntries(rest));
for (const [name, owner] of Object.entries({ buffer, ofCrypto, fs, threads, zlib })) walk(name, owner, 1);
console.log(texts.size > 700);
// The texts of node's own functions are long.
const sumOf = (text) => crypto.createHash("sha1").update(text).digest("hex").slice(0, 12);
const shortOf = (text) => (text.includes("[native code]") ? text : `${text.length} characters: ${sumOf(text)}`);
for (const name of [...texts.keys()].sort()) console.log(name, shortOf(texts.get(name)));
console.log(`${class { a = 1; }}`);
try {
  Function.prototype.toString.call({});
} catch (error) {
  console.log(error.message);
}
