// What node keeps, and agents can set by setters that can't be replaced: it has to be as it was at first.

import { EventEmitter } from "node:events";
import util from "node:util";
import { is, ownKeys } from "../../primordials.mjs";

/** @type {any} */
const { inspect } = util;

/** @returns {unknown[]} what is set now */
function settingsNow() {
  const { defaultOptions: options } = inspect;
  const keys = ownKeys(options);
  /** @type {unknown[]} */
  const values = [process.exitCode, EventEmitter.captureRejections, EventEmitter.defaultMaxListeners];
  for (let at = 0; at < keys.length; at += 1) values[values.length] = options[keys[at]];
  return values;
}

export class NodeSettings {
  constructor() {
    this.first = settingsNow();
  }

  /** @returns {boolean} whether something is set in another way than at first */
  haveChanged() {
    const now = settingsNow();
    for (let at = 0; at < now.length; at += 1) if (!is(now[at], this.first[at])) return true;
    return now.length !== this.first.length;
  }
}
