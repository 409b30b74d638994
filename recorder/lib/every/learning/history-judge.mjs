// Has the histories of runs judged by a thread of its own, in which the object is learned.

import { begunThread } from "../../processes/thread.mjs";
import { within } from "../../processes/within.mjs";
import { GRAPH_FLAGS } from "../../program/node/graph-flags.cjs";
import { Refused } from "../../options/refused.mjs";

/** @typedef {import("../../objects/history.mjs").Verdict} Verdict */

/** Where much else is done, a thread needs long only to begin. */
const LEAST_SECONDS = 60;

const JUDGING = new URL("./history-worker.mjs", import.meta.url);

export class HistoryJudge {
  /**
   * Begins its thread.
   * @param {import("./history-worker.mjs").HistoryWorkerData} given
   * @param {number} seconds for how long what is right may take to be found, if that is more than a minute
   */
  constructor(given, seconds) {
    this.module = given.module;
    this.seconds = Math.max(seconds, LEAST_SECONDS);
    this.thread = begunThread(JUDGING, [...process.execArgv, ...GRAPH_FLAGS]);
    this.thread.give(JUDGING, given);
  }

  /** @returns {Promise<void>} settled when the object is there @throws {Refused} if it can't be learned */
  async ready() {
    await this.#next();
  }

  /**
   * @param {import("./history-worker.mjs").JudgedHistory} history of a run
   * @returns {Promise<Verdict | undefined>} what changes how the run ends
   */
  async verdict(history) {
    this.thread.post(history);
    return (await this.#next()).verdict;
  }

  /** @returns {Promise<any>} */
  async #next() {
    const { module, seconds, thread } = this;
    const answered = await within(thread.next(), seconds);
    if (answered === undefined) {
      throw new Refused(`${module}: what the object does, used by one agent alone, wasn't found within ${seconds} s`);
    }
    const { message, ended } = answered;
    if (ended !== undefined) throw new Refused(`${module}: the thread that judges histories ended (${ended})`);
    if (message.refused !== undefined) throw new Refused(`${module}: ${message.refused}`);
    return message;
  }
}
