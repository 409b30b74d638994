// An act of a search as one number: whose it is, and what its agent chooses, if it does.

import { SCRIPT_LIMITS } from "../../../script/limits.mjs";

const { agents: MOST_AGENTS } = SCRIPT_LIMITS;

/** @param {number} agent @param {number} chosen 0, unless it chooses another number @returns {number} */
export const actOf = (agent, chosen) => MOST_AGENTS * chosen + agent;

/** @param {number} act @returns {number} whose it is */
export const actorOf = (act) => act % MOST_AGENTS;

/** @param {number} act @returns {number} what is chosen */
export const chosenIn = (act) => Math.floor(act / MOST_AGENTS);
