// Runs of many seeds. Jobs make them side by side; their outcomes are taken one by one, in the order of the seeds. The
// command line, the library and the tests of suites have their runs from here, and have found ones shortened.

import { hasThrown } from "../../page/endings.mjs";
import { isFirstOfAll } from "../run/order.mjs";
import { Delivery } from "./delivery.mjs";
import { differenceBetween } from "./first-again.mjs";
import { moreJobs } from "./more-jobs.mjs";
import { LostJob, RemoteJob } from "./remote-job.mjs";
import { SeedQueue } from "./seed-queue.mjs";
import { startJob } from "./start-job.cjs";

/** @typedef {import("./job.mjs").CheckedOutcome} CheckedOutcome */
/** @typedef {RemoteJob | import("./job.mjs").Job} AnyJob */

/**
 * @typedef {object} OfRuns
 * @property {number} first seed
 * @property {number} last seed
 * @property {number} [jobs] how many groups work side by side, each in a process of its own; undefined: one at first,
 * and further ones while processors are idle
 * @property {number} checkEvery every run that fails is checked, and one in so many of the others; 0: none at all
 * @property {string | false} [sabsim] the path of the native program that checks; undefined: the module does; false:
 * nothing is checked, and the outcomes are the same as if they were
 * @property {number} [origin] the seed from which one in so many is counted; the first if it isn't given
 * @property {boolean} [failFast] whether the first failing run is the last, unless it fails only after an early end
 * @property {boolean} [trials] whether only their endings are wanted, which takes less time: outcomes have no script
 * @property {Omit<import("../run/outcome.mjs").WantedRun, "seed" | "whole">} [wanted] what else is wanted of each run
 * @property {boolean} [shortens] whether the first failing run will be shortened
 * @property {boolean} [isBrief] whether only the outcomes of runs that may be the first failing one have their long
 * texts
 * @property {number} [ahead] how far a seed that is begun may be from the next one to be taken; as far as it likes, if
 * it isn't given
 * @property {boolean} [goesOn] whether the other jobs go on when the process of one has ended; and what has come until
 * a failure is handed out before the failure
 */

/** @typedef {import("../run/group.mjs").GroupOptions & OfRuns} RunsOptions */

/** @param {CheckedOutcome} outcome @returns {import("../run/same.mjs").RunSummary} */
const briefly = ({ seed, ending, detail, moves, calls, state, noScript, real, row, choices }) =>
  ({ seed, ending, detail, moves, calls, state, noScript, choices, ...(real === undefined ? {} : { real, row }) });

export class Runs {
  /** @type {Promise<void>[]} of each job, settled when it has made its last run */
  #working = [];

  /** How many outcomes have come. */
  #made = 0;

  /** @type {{ job: AnyJob, outcome: CheckedOutcome } | undefined} the first seed's run, and the job that made it */
  #first;

  /** @type {AbortController} aborted when no more runs are wanted */
  #end = new AbortController();

  /**
   * Nothing is started before the first outcome is asked for.
   * @param {RunsOptions} options
   * @param {{ signal?: AbortSignal, job?: AnyJob }} given what ends all runs, with its reason; the first job, which can
   * be one in this process
   */
  constructor(options, { signal, job } = {}) {
    this.options = options;
    this.signal = signal;
    this.queue = new SeedQueue(options);
    this.delivery = new Delivery(options.first);
    /** @type {AnyJob[]} */
    this.jobs = job === undefined ? [] : [job];
  }

  /**
   * Makes the runs, up to the first failing one if that is to be the last.
   * @returns {AsyncGenerator<CheckedOutcome, void, void>} in the order of the seeds; it fails at the first difference,
   * if the process of a job has ended, and by the signal
   */
  async *outcomes() {
    const { delivery, options: { failFast, goesOn }, signal } = this;
    if (signal?.aborted) throw signal.reason;
    signal?.addEventListener("abort", this.#stop);
    this.#begin();
    try {
      for (let next = await delivery.take(); next !== undefined; next = await delivery.take()) {
        yield next;
        if (failFast && isFirstOfAll(next)) return;
      }
    } catch (failure) {
      for (const outcome of goesOn ? delivery.left() : []) yield outcome;
      throw failure;
    }
  }

  /**
   * Looks for the shortest run that fails as one that was found, in the first job.
   * @param {CheckedOutcome} found
   * @param {(tried: import("../shorter/shorten.mjs").ShortenProgress) => void} [onTry] is called with each run that
   * this takes
   * @returns {Promise<import("./job.mjs").ShortenedByJob>}
   */
  shorten(found, onTry = () => {}) {
    return this.#atRest(() => this.jobs[0].shorten(briefly(found), onTry));
  }

  /**
   * Makes the run of a program that is kept once more, so that what it prints is shown, unless that was shown already.
   * @param {CheckedOutcome} found the failing run
   * @param {CheckedOutcome} [shortest] that is kept in its place
   */
  async showOutput(found, shortest) {
    const { first, kind, programOutput } = this.options;
    const { seed, row } = shortest ?? found;
    const wasShown = shortest === undefined && seed === first;
    if (!kind?.printsOnce || programOutput !== undefined || row === undefined || wasShown) return;
    const wanted = { seed, row, whole: false, isExact: true, isTrial: true, isShown: true };
    await this.#atRest(() => this.jobs[0].run([wanted], () => {}));
  }

  /**
   * Makes the run of the first seed once more, in the same job, if there were other runs and workers are kept.
   * @returns {Promise<import("./first-again.mjs").Remembering | undefined>} how it differed, if it did
   */
  async firstAgain() {
    const { fresh, wanted } = this.options;
    const first = this.#first;
    if (first === undefined || fresh || this.#made < 2 || isLost(first.job)) return undefined;
    const { job, outcome: { seed } } = first;
    const compared = { ...wanted, seed, whole: false, wantsActs: true, isSilent: true };
    /** @type {CheckedOutcome | undefined} */
    let again;
    try {
      await this.#atRest(() => job.run([compared], (outcome) => {
        again = outcome;
      }));
    } catch (failure) {
      if (!(failure instanceof LostJob)) throw failure;
      const { ending: was, detail } = first.outcome;
      const is = "the end of its job's process";
      return { seed, differs: "ending", was, is, threw: hasThrown(was, detail), real: false };
    }
    return again && differenceBetween(first.outcome, again);
  }

  /**
   * Makes further runs, in the first job.
   * @param {import("../run/outcome.mjs").WantedRun[]} wanted
   * @param {(outcome: CheckedOutcome) => void} onOutcome
   */
  async further(wanted, onOutcome) {
    await this.#atRest(() => this.jobs[0].run(wanted, onOutcome));
  }

  /** @param {CheckedOutcome} outcome @returns {boolean} whether it is the last one */
  isLast(outcome) {
    const { failFast, last } = this.options;
    return outcome.seed === last || (failFast === true && isFirstOfAll(outcome));
  }

  /**
   * Does something when no job makes runs any more.
   * @template T
   * @param {() => Promise<T>} act
   * @returns {Promise<T>} fails by the signal
   */
  async #atRest(act) {
    this.#stopTaking();
    const { signal } = this;
    const stopped = new Promise((_, fail) => {
      if (signal?.aborted) fail(signal.reason);
      signal?.addEventListener("abort", () => fail(signal.reason));
    });
    await Promise.race([Promise.allSettled(this.#working), stopped]);
    return /** @type {Promise<T>} */ (Promise.race([act(), stopped]));
  }

  /** Ends all that was started. */
  async close() {
    this.#end.abort();
    this.signal?.removeEventListener("abort", this.#stop);
    this.#stopTaking();
    await Promise.all(this.jobs.map((job) => job.close()));
  }

  /** No job begins another run. */
  #stopTaking() {
    this.queue.stop();
    this.delivery.taking.signal();
  }

  /** Ends all at once, even if nobody asks for more outcomes. */
  #stop = () => {
    this.delivery.fail(this.signal?.reason);
    void this.close();
  };

  /** Starts the jobs, and lets them make the runs. */
  #begin() {
    const { first, last, jobs = 1 } = this.options;
    const needed = Math.min(jobs, Math.ceil((last - first + 1) / this.queue.batch));
    while (this.jobs.length < needed) this.jobs.push(this.#newJob());
    const opened = Promise.all(this.jobs.map((job) => this.#opened(job)));
    this.#working = this.jobs.map((job) => this.#work(job, opened));
    void this.#finish();
    // Other code reports that it is aborted, or that the first job isn't opened.
    if (this.options.jobs === undefined) this.#grow(opened).catch(() => {});
  }

  /** Ends the delivery as the jobs ended: with the first failure, or with all that is known about lost jobs. */
  async #finish() {
    let settled = 0;
    /** @type {PromiseSettledResult<void>[]} */
    let all = [];
    // Further jobs may come while these are at work.
    while (settled < this.#working.length) {
      settled = this.#working.length;
      all = await Promise.allSettled(this.#working);
    }
    const failures = all.flatMap((each) => (each.status === "rejected" ? [each.reason] : []));
    const worst = failures.find((failure) => !(failure instanceof LostJob));
    const messages = new Set(failures.map((failure) => failure.message));
    if (worst !== undefined) this.delivery.fail(worst);
    if (failures.length > 0) this.delivery.fail(new LostJob([...messages].join("; ")));
    this.delivery.finish();
  }

  /**
   * Takes further jobs while that is worth it.
   * @param {Promise<unknown>} opened settled when the first one is there
   */
  async #grow(opened) {
    const state = () => ({ jobs: this.jobs.length, made: this.#made, left: this.queue.left });
    for await (const _ of moreJobs(opened, state, this.#end.signal)) {
      const job = this.#newJob();
      this.jobs.push(job);
      // One that can't be opened has taken no seed, and the others make all runs.
      await this.#opened(job);
      this.#working.push(this.#work(job));
    }
  }

  #newJob() {
    return new RemoteJob(startJob(this.options));
  }

  /** @param {AnyJob} job */
  #opened(job) {
    const { checkEvery, sabsim, shortens = false } = this.options;
    const checking = { checks: checkEvery > 0 && sabsim !== false, sabsim: sabsim || undefined };
    return job.open({ ...this.options, ...checking, shortens: shortens && job === this.jobs[0] });
  }

  /**
   * Keeps a job at work until there are no seeds, or something failed. If the job is lost, others can go on.
   * @param {AnyJob} job
   * @param {Promise<unknown>} [opened] settled when it can begin
   */
  async #work(job, opened) {
    const { delivery, options: { ahead = Infinity, goesOn }, queue } = this;
    try {
      await opened;
      for (;;) {
        while (queue.left > 0 && queue.next - delivery.next >= ahead) await delivery.taking.next();
        const seeds = queue.take();
        if (seeds.length === 0) return;
        await this.#run(job, seeds);
      }
    } catch (failure) {
      if (!goesOn || !(failure instanceof LostJob)) {
        queue.stop();
        delivery.fail(failure);
      }
      throw failure;
    }
  }

  /**
   * @param {AnyJob} job
   * @param {import("../run/outcome.mjs").WantedRun[]} seeds in their order
   */
  async #run(job, seeds) {
    let made = 0;
    /** @type {CheckedOutcome[]} the run whose check has failed: the failure comes before it */
    const differing = [];
    try {
      await job.run(seeds, (outcome) => {
        made += 1;
        this.#made += 1;
        if (outcome.acts !== undefined) {
          this.#first = { job, outcome: { ...outcome } };
          delete outcome.acts;
        }
        if (outcome.checked || outcome.unchecked !== undefined) this.delivery.add(outcome);
        else differing.push(outcome);
        if (this.options.failFast && isFirstOfAll(outcome)) this.queue.stop();
      });
    } catch (failure) {
      if (differing.length > 0) this.delivery.fail(failure);
      for (const outcome of differing) this.delivery.add(outcome);
      for (const { seed } of seeds.slice(made)) this.delivery.lose(seed);
      if (!(failure instanceof LostJob) || made === seeds.length) throw failure;
      const [from, to] = [seeds[made].seed, seeds[seeds.length - 1].seed];
      const missing = from === to ? `of seed ${from}` : `of the seeds ${from} to ${to}`;
      throw new LostJob(`${failure.message}, and nothing is known ${missing}`);
    }
  }
}

/** @param {AnyJob} job @returns {boolean} whether its process is no more */
const isLost = (job) => job instanceof RemoteJob && job.lost !== undefined;

/**
 * All outcomes of some runs. When no more are taken, all that was started is ended.
 * @param {Runs} runs
 * @returns {AsyncGenerator<CheckedOutcome & { remembers?: import("./first-again.mjs").Remembering }, void, void>} the
 * last one says how the first seed's run differed when it was made once more, if it did
 */
export async function* outcomesOf(runs) {
  try {
    for await (const outcome of runs.outcomes()) {
      const remembers = runs.isLast(outcome) ? await runs.firstAgain() : undefined;
      yield remembers === undefined ? outcome : { ...outcome, remembers };
    }
  } finally {
    await runs.close();
  }
}
