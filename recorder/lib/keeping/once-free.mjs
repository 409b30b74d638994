// A file that another program holds for a moment, as scanners of Windows do with one that was just written.

import { HERE } from "../processes/platform.cjs";
import { sleep } from "../processes/sleep.mjs";

const HELD = ["EPERM", "EACCES", "EBUSY"];
const WAIT_MILLISECONDS = 20;

/**
 * Does something with a file, again and again while another program holds it, as long as this system's programs may.
 * @template Done
 * @param {() => Done} act
 * @param {import("../processes/platform.cjs").Platform} platform
 * @returns {Done}
 * @throws {Error} what `act` threw last
 */
export function onceFree(act, { heldMilliseconds } = HERE) {
  for (let left = heldMilliseconds; ; left -= WAIT_MILLISECONDS) {
    try {
      return act();
    } catch (error) {
      if (left <= 0 || !HELD.includes(/** @type {any} */ (error).code)) throw error;
      sleep(WAIT_MILLISECONDS);
    }
  }
}
