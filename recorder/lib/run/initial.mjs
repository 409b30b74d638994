// What fills the buffers before a run, as stores of an agent of its own.

import { KINDS, SIZES } from "../../script/kinds.mjs";

const INT32 = KINDS.indexOf("Int32");
const UINT8 = KINDS.indexOf("Uint8");

/**
 * Takes over what the buffers were filled with.
 * @param {import("../memory/recorded-memory.mjs").RecordedMemory} memory whose known bytes are all zero
 * @param {number} agent
 * @returns {import("../memory/stores.mjs").Store[]} whole words, and else bytes; none if all is zero
 */
export function initialStores(memory, agent) {
  /** @type {import("../memory/stores.mjs").Store[]} */
  const stores = [];
  memory.real.forEach((real, block) => {
    const whole = real.length - (real.length % SIZES[INT32]);
    for (let byte = 0; byte < real.length;) {
      const kind = byte < whole ? INT32 : UINT8;
      const bytes = real.slice(byte, byte + SIZES[kind]);
      if (bytes.some((value) => value !== 0)) stores.push({ position: 0, agent, block, byte, kind, bytes });
      byte += SIZES[kind];
    }
    memory.syncShadow(block, 0, real.length);
  });
  return stores;
}
