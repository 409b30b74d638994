// What node's own code needs of its globals and ports, but a program for browsers must not find.

import { isCalledByAgents } from "../../agent/frames.mjs";
import { defineProperty } from "../../primordials.mjs";

/** @param {any} owner @param {string} name of a member that is undefined for the program's code alone */
export function hide(owner, name) {
  const own = owner[name];
  const get = () => (isCalledByAgents(get) ? undefined : own);
  defineProperty(owner, name, { get, configurable: true });
}
