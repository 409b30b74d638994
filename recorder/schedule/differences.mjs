// What is different between the reports of two schedules of the same calls.

import { isStandIn } from "./report-entries.mjs";

/** @typedef {import("./report-entries.mjs").ReportEntry} ReportEntry */
/** @typedef {import("./report-entries.mjs").Report} Report */

/**
 * @template T
 * @typedef {object} Different the result of a call
 * @property {number} agent
 * @property {number} call
 * @property {(string | number)[]} does
 * @property {T} before
 * @property {T} after
 */

/** @typedef {{ block: number, byte: number, before: string, after: string }} DifferentBytes in hexadecimal digits */

/**
 * @typedef {object} Differences
 * @property {Different<number | string | undefined>[]} answers undefined: the call has none
 * @property {Different<number[]>[]} woken which agents a notify has woken
 * @property {DifferentBytes[]} bytes those that follow each other are together
 */

/**
 * The entry of each call that has its answer, without stores that stand for something else.
 * @param {Report} report
 * @returns {Map<string, ReportEntry>}
 */
function answered({ entries }) {
  const acts = entries.filter(({ what, does }) => (what === "act" || what === "leave") && !isStandIn(does));
  return new Map(acts.map((entry) => [`${entry.agent} ${entry.call}`, entry]));
}

/**
 * The bytes in which two blocks differ.
 * @param {string} before in hexadecimal digits
 * @param {string} after of the same length
 * @param {number} block
 */
function differentBytes(before, after, block) {
  /** @type {DifferentBytes[]} */
  const ranges = [];
  for (let byte = 0; 2 * byte < before.length; byte += 1) {
    const [was, is] = [before, after].map((digits) => digits.slice(2 * byte, 2 * byte + 2));
    const last = ranges[ranges.length - 1];
    if (was === is) continue;
    if (last !== undefined && last.byte + last.before.length / 2 === byte) {
      last.before += was;
      last.after += is;
    } else ranges.push({ block, byte, before: was, after: is });
  }
  return ranges;
}

/**
 * @param {Report} before
 * @param {Report} after
 * @returns {Differences} in the order of agents and their calls, and of blocks and their bytes
 */
export function differencesOf(before, after) {
  const [old, now] = [answered(before), answered(after)];
  const calls = [...new Map([...old, ...now])].sort(([, one], [, other]) =>
    one.agent - other.agent || one.call - other.call);
  /**
   * The calls whose results differ.
   * @template T
   * @param {(entry: ReportEntry | undefined) => T} part
   * @returns {Different<T>[]}
   */
  const differing = (part) => calls.flatMap(([key, { agent, call, does }]) => {
    const [was, is] = [part(old.get(key)), part(now.get(key))];
    return JSON.stringify(was) === JSON.stringify(is) ? [] : [{ agent, call, does, before: was, after: is }];
  });
  return {
    answers: differing((entry) => entry?.answer),
    woken: differing((entry) => /** @type {number[]} */ (entry?.found?.woken ?? [])),
    bytes: before.blocks.flatMap((bytes, block) => differentBytes(bytes, after.blocks[block], block)),
  };
}
