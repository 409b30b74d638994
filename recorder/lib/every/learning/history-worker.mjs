// The thread that judges the histories of runs: it learns what is right of an object, and watches what its agents have
// done.

import { workerData } from "node:worker_threads";
import { verdictOf } from "../../objects/history.mjs";
import { Asker } from "./asking.mjs";
import { loadCode } from "./learned-code.mjs";
import { Learned } from "./learned.mjs";
import { installRealm, installShown } from "./realm.mjs";

/**
 * @typedef {object} HistoryWorkerData
 * @property {string} module
 * @property {string[]} args
 * @property {import("./learned.mjs").LearningOptions["place"]} place
 * @property {import("../search/search.mjs").Choice} timeouts
 */

/** @typedef {{ events: import("../../objects/history.mjs").HistoryEvent[], ending: string }} JudgedHistory */

class Histories {
  /** @param {HistoryWorkerData} given */
  constructor({ module, ...wanted }) {
    this.asker = new Asker();
    const platform = installRealm(this.asker);
    installShown();
    const code = loadCode(module, this.asker, platform);
    this.learned = new Learned(code, this.asker, { ...wanted, limit: Infinity });
    /** @type {import("./learned.mjs").MonitoredObject | undefined} what is right, as far as it was asked for */
    this.object = undefined;
  }

  /** @param {JudgedHistory} history @returns {import("../../objects/history.mjs").Verdict | undefined} */
  verdict({ events, ending }) {
    for (;;) {
      try {
        this.object ??= this.learned.monitored();
        return verdictOf(this.object, events, ending);
      } catch (why) {
        this.learned.beginAgain(why);
        this.object = undefined;
      }
    }
  }
}

/** Waits for its work, and does it. */
export function main() {
  const given = /** @type {HistoryWorkerData & { port: import("node:worker_threads").MessagePort }} */ (workerData);
  const { port } = given;
  /** @type {Histories | undefined} */
  let histories;
  /** @param {() => object} answer */
  const post = (answer) => {
    try {
      port.postMessage(answer());
    } catch (problem) {
      const { message = String(problem) } = histories?.asker.refused ?? /** @type {any} */ (problem);
      port.postMessage({ refused: message });
    }
  };
  post(() => {
    const { args, module, place, timeouts } = given;
    histories = new Histories({ module, args, place, timeouts });
    // A run without an operation: what can't be learned is refused at once.
    histories.verdict({ events: [], ending: "finished" });
    return { ready: true };
  });
  port.on("message", (history) => post(() => ({ verdict: histories?.verdict(history) })));
}
