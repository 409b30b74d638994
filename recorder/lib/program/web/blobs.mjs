// The `blob:` URLs of a run. Each thread knows all of them: one that makes or revokes a URL hands that to the others. A
// URL ends with the thread that has made it.

import { defineProperty } from "../../primordials.mjs";
import { isBlob } from "../node/internals.mjs";
import { bytesOf } from "../sync/sync-blobs.mjs";

const { TypeError: EngineTypeError, URL: EngineURL } = globalThis;

/**
 * @typedef {{ bytes: Uint8Array, type: string, agent: number }} Content of a blob, and the thread that has made its URL
 */

export class Blobs {
  /** @type {Map<string, Content | undefined>} by URL; undefined: it was revoked */
  #known = new Map();
  /** How many URLs this thread has made in the run. */
  #made = 0;

  /**
   * One for each thread.
   * @param {object} parts
   * @param {import("../moves/control-channels.mjs").ControlChannels} parts.control
   * @param {import("../moves/moves.mjs").Moves} parts.moves
   * @param {import("../moves/threads.mjs").Threads} parts.threads
   */
  constructor({ control, moves, threads }) {
    this.control = control;
    this.moves = moves;
    this.threads = threads;
    control.onItem("blob", ({ url, content }) => {
      // Another thread may have revoked it since.
      if (!this.#known.has(url)) this.#known.set(url, content);
    });
    control.onItem("revoked", ({ url }) => void this.#known.set(url, undefined));
  }

  /** Puts the functions that make and revoke URLs in the place of node's. */
  install() {
    const createObjectURL = (/** @type {unknown} */ blob) => this.#make(blob);
    const revokeObjectURL = (/** @type {unknown} */ url) => this.#revoke(`${url}`);
    for (const value of [createObjectURL, revokeObjectURL]) {
      defineProperty(EngineURL, value.name, { value, writable: true, enumerable: true, configurable: true });
    }
  }

  /** Nothing of an earlier run is left. */
  clear() {
    this.#known.clear();
    this.#made = 0;
  }

  /** @param {number} agent that begins, and has to know the URLs that there are */
  handTo(agent) {
    for (const [url, content] of this.#known) this.control.hand(agent, { kind: "blob", url, content });
  }

  /** @param {string} url @returns {Content | undefined} undefined: no thread has made it, or it was revoked */
  at(url) {
    this.control.take();
    const content = this.#known.get(url);
    return content !== undefined && this.threads.isAlive(content.agent) ? content : undefined;
  }

  /** @param {any} blob @returns {string} its URL */
  #make(blob) {
    if (!isBlob(blob)) {
      throw new EngineTypeError("Failed to execute 'createObjectURL' on 'URL': Overload resolution failed.");
    }
    const { agent } = this.moves;
    const url = `blob:null/${agent}-${this.#made}`;
    this.#made += 1;
    const content = { bytes: bytesOf(blob), type: blob.type, agent };
    this.#known.set(url, content);
    this.control.handAll({ kind: "blob", url, content });
    return url;
  }

  /** @param {string} url */
  #revoke(url) {
    // What other threads do with the URL comes before or after.
    this.moves.yield();
    this.#known.set(url, undefined);
    this.control.handAll({ kind: "revoked", url });
  }
}
