// The page to try the simulator: one file for a browser, which needs no other and no network.

import { documentOf } from "./document.mjs";

/**
 * @param {{ name: string, text: string }[]} examples scripts to choose from; the first is shown first
 * @param {import("./document.mjs").SimulatorParts} simulator
 * @returns {string}
 */
export const tryPageOf = (examples, simulator) => documentOf("try", "Try sabsim", { examples }, simulator);
