// A job in a process of its own. All threads of a process share one lock of the engine's for Atomics.wait, so several
// jobs in one process would hold each other up. And if agents hold or end a process, it isn't the recorder's.

import { Difference } from "../check/difference.mjs";
import { Refused } from "../options/refused.mjs";
import { endGroup, endRest } from "../processes/group-end.mjs";
import { NoSabsim } from "../simulator/native.mjs";
import { KeepsGlobals } from "./first-again.mjs";

/** @typedef {import("./job.mjs").CheckedOutcome} CheckedOutcome */

/**
 * @typedef {object} JobRequest what a job's process is asked for: one of these
 * @property {Parameters<import("./job.mjs").Job["open"]>[0]} [open]
 * @property {import("../run/outcome.mjs").WantedRun[]} [run]
 * @property {import("../run/same.mjs").RunSummary} [shorten]
 */

/**
 * @typedef {object} Message what it replies: one of these
 * @property {import("../shorter/shorten.mjs").ShortenProgress} [tried]
 * @property {CheckedOutcome} [failing] the outcome of a run that fails, and that is about to be checked
 * @property {string} [passed] the next outcomes in order, as JSON text of a list
 * @property {CheckedOutcome} [outcome] the next one, if it fails or may be long
 * @property {Packed} [failed]
 * @property {unknown} [done]
 */

/**
 * @typedef {object} Packed an error as a message
 * @property {string} [kind] undefined: it is a defect
 * @property {string} message
 * @property {import("../check/difference.mjs").Scripted} [outcome] of a difference
 * @property {string} [replayed] of a difference
 * @property {string} [judged] of a difference
 */

/** The process of a job has ended, by itself or by others. */
export class LostJob extends Error {}

/** @type {Record<string, { new (message: string): Error }>} */
const KINDS = { Refused, NoSabsim, LostJob, KeepsGlobals };

/**
 * An error as a message.
 * @param {unknown} error
 * @returns {Packed}
 */
export function packed(error) {
  if (error instanceof Difference) {
    const { message, outcome, replayed, judged } = error;
    return { kind: "Difference", message, outcome, replayed, judged };
  }
  const kind = Object.keys(KINDS).find((name) => error instanceof KINDS[name]);
  if (!(error instanceof Error)) return { kind, message: String(error) };
  return { kind, message: kind === undefined ? error.stack ?? String(error) : error.message };
}

/** @param {Packed} packed */
function unpacked({ kind = "", message, outcome, replayed = "", judged }) {
  if (kind === "Difference" && outcome !== undefined) return new Difference(message, outcome, replayed, judged);
  return new (KINDS[kind] ?? Error)(message);
}

export class RemoteJob {
  /** @param {import("node:child_process").ChildProcess} child its process */
  constructor(child) {
    this.child = child;
    /** @type {(tried: import("../shorter/shorten.mjs").ShortenProgress) => void} */
    this.onTry = () => {};
    /** @type {((message: Message) => void) | undefined} what is done with messages while a request is under way */
    this.onMessage = undefined;
    /** @type {string | undefined} why its process is no more */
    this.lost = undefined;
    /** @type {CheckedOutcome | undefined} a failing run whose check hasn't ended */
    this.failing = undefined;
    /** @type {Promise<void>} */
    this.gone = new Promise((done) => this.#watch(done));
    this.child.on("message", (message) => this.#take(message));
  }

  /**
   * Starts its workers.
   * @param {Parameters<import("./job.mjs").Job["open"]>[0]} options
   * @returns {Promise<void>}
   */
  open(options) {
    return this.#ask({ open: options });
  }

  /**
   * @param {import("../run/outcome.mjs").WantedRun[]} seeds
   * @param {(outcome: CheckedOutcome) => void} onOutcome
   * @returns {Promise<void>}
   */
  run(seeds, onOutcome) {
    return this.#ask({ run: seeds }, onOutcome);
  }

  /**
   * @param {import("../run/same.mjs").RunSummary} summary the summary of a run that was found
   * @param {(tried: import("../shorter/shorten.mjs").ShortenProgress) => void} onTry
   * @returns {Promise<import("./job.mjs").ShortenedByJob>}
   */
  shorten(summary, onTry) {
    this.onTry = onTry;
    return this.#ask({ shorten: summary });
  }

  /** Ends the process, and all that it has started. Nothing more is reported about it. */
  async close() {
    this.onMessage = undefined;
    this.onTry = () => {};
    if (this.lost === undefined) endGroup(this.child.pid);
    await this.gone;
  }

  /** @param {() => void} done is called when the process is no more, and all that it has sent was taken */
  #watch(done) {
    /** @param {string} message */
    const lose = (message) => {
      this.lost = message;
      this.onMessage?.({ failed: { kind: "LostJob", message } });
      done();
    };
    this.child.on("exit", (code, signal) => {
      const message = `a job's process ended by itself (${signal ?? `status ${code}`})`;
      // What it has started may be left.
      endRest(this.child.pid);
      if (this.child.connected) this.child.once("disconnect", () => lose(message));
      else lose(message);
    });
    this.child.on("error", (error) => {
      // If one has started, but nothing can be sent to it, its exit says so.
      if (this.child.pid === undefined) lose(`a job's process can't be started: ${error.message}`);
    });
  }

  /** @param {Message} message */
  #take(message) {
    if (message.tried !== undefined) this.onTry(message.tried);
    else this.onMessage?.(message);
  }

  /**
   * @param {JobRequest} request
   * @param {(outcome: CheckedOutcome) => void} [onOutcome]
   * @returns {Promise<any>}
   */
  #ask(request, onOutcome) {
    return new Promise((done, fail) => {
      /** @param {CheckedOutcome} outcome */
      const handOn = (outcome) => {
        this.failing = undefined;
        onOutcome?.(outcome);
      };
      /** @type {(settle: (value: unknown) => void, value: unknown) => void} */
      const end = (settle, value) => {
        this.onMessage = undefined;
        this.failing = undefined;
        settle(value);
      };
      /** @param {Message} message */
      const onMessage = (message) => {
        try {
          if (message.failing !== undefined) this.failing = message.failing;
          else if (message.passed !== undefined) for (const outcome of JSON.parse(message.passed)) handOn(outcome);
          else if (message.outcome !== undefined) handOn(message.outcome);
          else if (message.failed !== undefined) throw unpacked(message.failed);
          else end(done, message.done);
        } catch (problem) {
          if (problem instanceof LostJob && this.failing !== undefined) handOn(this.failing);
          end(fail, problem);
        }
      };
      this.onMessage = onMessage;
      // If it can't be sent, the process is about to end or hasn't begun, and its events report it.
      if (this.lost === undefined) this.child.send?.(request, () => {});
      else onMessage({ failed: { kind: "LostJob", message: this.lost } });
    });
  }
}
