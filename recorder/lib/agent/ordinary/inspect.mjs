// How node shows values. Its own way looks through watched arrays. So each watched array has a way of its own to be
// shown, which reports it as read, and it looks like the engine's.

import util from "node:util";
import { TypedArray, apply, getOwnPropertyDescriptor, put, uncurried } from "../../primordials.mjs";
import { blockNumber } from "./context.mjs";
import { copying, madePrivate } from "./guards.mjs";
import { methodOf, replace, replaceEach } from "./patch.mjs";
import { privateBuffer, privateView } from "./reach.mjs";
import { watchedOf, watchedView } from "./watched.mjs";

const custom = Symbol.for("nodejs.util.inspect.custom");

// Node shows what these return; for what isn't watched it goes on as if there were none of them.
const SHOWN = {
  array() {
    const watched = watchedOf(this);
    return watched === undefined ? this : privateView(watched);
  },
  /** A view is shown with its whole buffer. */
  view() {
    const watched = watchedView(this);
    return watched === undefined ? this : privateView(watched, privateBuffer(watched.buffer));
  },
  buffer() {
    return blockNumber(this) < 0 ? this : privateBuffer(this);
  },
};

const includes = uncurried(String.prototype.includes);

/** Node's options if nobody gives others. */
const { get: defaults } = /** @type {{ get: Function }} */ (getOwnPropertyDescriptor(util.inspect, "defaultOptions"));

/** @param {any} options @returns {boolean} whether options leave no way of a value's own, or look into proxies */
const isPlain = (options) =>
  typeof options === "object" && options !== null && (options.customInspect === false || !!options.showProxy);

/**
 * Node uses its own way alone if the options say so, or a format that shows all that there is: then private copies are
 * shown.
 * @param {unknown[]} given
 * @param {number} place of the options, or -1
 * @param {number} format its place, or -1
 */
function looksThrough(given, place, format) {
  if (isPlain(given[place]) || isPlain(apply(defaults, undefined, []))) return true;
  return typeof given[format] === "string" && includes(given[format], "%o");
}

/** @type {(place: number, format: number) => import("./patch.mjs").StandInMaker} */
const showing = (place, format) => (engine) => methodOf((self, given) =>
  apply(engine, self, looksThrough(given, place, format) ? madePrivate(given) : given), engine);

const PRINTING = ["log", "info", "debug", "warn", "error", "trace", "group", "groupCollapsed"];

/** @param {object} owner the console, or what new ones inherit from */
function watchConsole(owner) {
  replaceEach(owner, PRINTING, showing(-1, 0));
  replaceEach(owner, ["dir", "dirxml"], copying);
}

/** Patches what shows values. */
export function watchInspection() {
  put(TypedArray.prototype, custom, SHOWN.array);
  put(DataView.prototype, custom, SHOWN.view);
  put(SharedArrayBuffer.prototype, custom, SHOWN.buffer);
  replace(util, "inspect", showing(1, -1));
  replace(util, "format", showing(-1, 0));
  replace(util, "formatWithOptions", showing(0, 1));
  watchConsole(console);
  watchConsole(console.Console.prototype);
}
