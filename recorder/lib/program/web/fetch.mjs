// The `fetch` of a program for browsers: it gets files, as a server beside the program would send them, and what a
// `blob:` URL has. A task has the response, and another one its body.

import fs from "node:fs";
import { fileURLToPath } from "node:url";
import { likeEngine, put } from "../../primordials.mjs";
import { OF_ENGINE } from "../sync/trips.mjs";

/** @type {any} */
const scope = globalThis;
/** @type {any} */
const assembly = scope.WebAssembly;
const { TypeError: EngineTypeError, Uint8Array: EngineBytes, URL: EngineURL } = globalThis;
const { readFileSync } = /** @type {any} */ (fs);

const FOUND = Object.freeze({ status: 200, statusText: "OK" });
const NOT_FOUND = Object.freeze({ status: 404, statusText: "Not Found" });

/**
 * @typedef {object} Fetching what `fetch` needs of its thread
 * @property {import("../sync/sync-calls.mjs").SyncVersionContext["later"]} later does something as a task of its own
 * @property {(why: string) => never} refuse ends the run
 * @property {import("./blobs.mjs").Blobs} blobs
 */

/**
 * Makes node load its Request and Response, which it does when they are asked for. It then compiles what reads the
 * answers of servers. That isn't needed here, and in a run it would be a task that the program doesn't have.
 * @returns {{ Request: any, Response: any }}
 */
function loaded() {
  const { compile } = assembly;
  assembly.compile = () => new Promise(() => {});
  const { Request, Response } = scope;
  assembly.compile = compile;
  return { Request, Response };
}

/** @param {string} url of a file @returns {Uint8Array | undefined} undefined: there is none */
function fileAt(url) {
  try {
    return readFileSync(fileURLToPath(url));
  } catch {
    return undefined;
  }
}

/**
 * @param {Uint8Array | undefined} bytes undefined: there is nothing
 * @param {Fetching["later"]} later
 * @returns {any} a stream
 */
function bodyOf(bytes, later) {
  let isWanted = true;
  return new scope.ReadableStream({
    pull: (/** @type {any} */ controller) => later("has the body of a response", () => {
      if (!isWanted) return;
      if (bytes !== undefined) controller.enqueue(new EngineBytes(bytes));
      controller.close();
    }),
    cancel: () => { isWanted = false; },
  }, { highWaterMark: 0 });
}

/**
 * @param {Fetching} fetching
 * @returns {Function} that of a thread
 */
export function fetchOf({ later, refuse, blobs }) {
  const { Request, Response } = loaded();
  const responseOf = (/** @type {string} */ url, /** @type {Uint8Array | undefined} */ bytes) => {
    const response = new Response(bodyOf(bytes, later), bytes === undefined ? NOT_FOUND : FOUND);
    put(response, "url", url.replace(/#.*$/, ""));
    put(response, "type", "basic");
    return response;
  };
  const fetch = async (/** @type {any[]} */ ...given) => {
    if (given.length === 0) throw new EngineTypeError("Failed to execute 'fetch': 1 argument required.");
    const [input, init] = given;
    const asked = input instanceof Request ? input : new EngineURL(`${input}`, scope.location.href);
    const { method, signal, url } = new Request(asked, init);
    if (method !== "GET") refuse(`fetched ${url} by ${method}, which isn't simulated`);
    if (!/^(?:file|blob):/.test(url)) refuse(`fetched ${url}, which isn't simulated`);
    signal.throwIfAborted();
    const bytes = url.startsWith("blob:") ? blobs.at(url)?.bytes : fileAt(url);
    if (bytes === undefined && url.startsWith("blob:")) throw new EngineTypeError("Failed to fetch");
    return await new Promise((resolve, reject) => {
      signal.addEventListener("abort", () => reject(signal.reason));
      later("has the result of fetch", () => resolve(responseOf(url, bytes)), undefined, OF_ENGINE);
    });
  };
  return likeEngine(fetch, scope.fetch);
}
