// The streams of a Blob. Its bytes are there at once. A later node takes each part by an immediate of its own, which no
// loop of the run has, so here each part comes in a task. The other methods of a Blob are node's.

import { apply } from "../../primordials.mjs";
import { isBlob, kHandle } from "../node/internals.mjs";
import { OF_ENGINE } from "./trips.mjs";
import { promiseLater, replaceCall } from "./sync-calls.mjs";

/** @typedef {import("./sync-calls.mjs").SyncVersionContext} SyncVersionContext */

/** @type {any} */
const engine = globalThis;
const { Blob: EngineBlob, ReadableStream: EngineStream, TextDecoderStream: EngineDecoder } = engine;
const { Uint8Array: EngineBytes } = globalThis;
const { concat } = Buffer;

const READ = Object.freeze({ order: OF_ENGINE });

/** What the bytes of a blob are followed by, as node's reader has it. */
const END = 0;

/** @param {any} blob in memory @returns {Uint8Array[]} its bytes, which are there at once, in the parts that it has */
function partsOf(blob) {
  const reader = blob[kHandle].getReader();
  /** @type {Uint8Array[]} */
  const parts = [];
  for (let status = 1; status !== END;) {
    status = END;
    reader.pull((/** @type {number} */ found, /** @type {ArrayBuffer | undefined} */ part) => {
      status = found;
      if (part !== undefined) parts.push(new EngineBytes(part));
    });
  }
  return parts;
}

/** @param {any} blob in memory @returns {Uint8Array} its bytes, which are there at once */
export const bytesOf = (blob) => new EngineBytes(concat(partsOf(blob)));

/** @param {SyncVersionContext} given @param {Uint8Array[]} parts @returns {any} a stream of them */
function streamOf(given, parts) {
  let at = 0;
  return new EngineStream({
    type: "bytes",
    pull: (/** @type {any} */ controller) => promiseLater(given, "Blob.stream", () => {}, READ).then(() => {
      if (at < parts.length) controller.enqueue(parts[at]);
      at += 1;
      if (at < parts.length) return;
      controller.close();
      controller.byobRequest?.respond(0);
    }),
  });
}

/** @param {SyncVersionContext} given */
export function putBlobs(given) {
  const { isPlaying = () => true } = given;
  const { prototype } = /** @type {any} */ (EngineBlob);
  const { stream } = prototype;
  replaceCall(prototype, "stream", /** @this {any} */ function () {
    return isPlaying() && isBlob(this) ? streamOf(given, partsOf(this)) : apply(stream, this, []);
  });
  // Node 20 has none.
  const { textStream } = prototype;
  if (textStream === undefined) return;
  replaceCall(prototype, "textStream", /** @this {any} */ function () {
    return isPlaying() && isBlob(this) ? this.stream().pipeThrough(new EngineDecoder()) : apply(textStream, this, []);
  });
}
