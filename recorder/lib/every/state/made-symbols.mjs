// Which symbols the agents' code has made. Each other one that no name leads to is a key of objects of node's: agents
// can get at it again when nothing of theirs has it any more.

import { apply, defineProperty, getOwnPropertyDescriptor, proxyOf, uncurried } from "../../primordials.mjs";

const made = new WeakSet();
const add = uncurried(WeakSet.prototype.add);
const has = uncurried(WeakSet.prototype.has);

/** Sees what symbols are made. It is called once, before any of the agents' code is loaded. */
export function watchSymbols() {
  const { Symbol: EngineSymbol } = globalThis;
  const stand = proxyOf(EngineSymbol, {
    apply: (engine, self, given) => {
      const symbol = apply(engine, self, given);
      add(made, symbol);
      return symbol;
    },
  });
  const places = /** @type {const} */ ([[globalThis, "Symbol"], [EngineSymbol.prototype, "constructor"]]);
  for (const [owner, key] of places) {
    defineProperty(owner, key, { ...getOwnPropertyDescriptor(owner, key), value: stand });
  }
}

/** @param {symbol} symbol @returns {boolean} whether the agents' code has made it */
export const isMadeByAgents = (symbol) => has(made, symbol);
