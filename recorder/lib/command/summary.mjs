// What is reported about many runs. It doesn't depend on the order in which their outcomes come, nor on how the seeds
// were shared out. Little is kept of each run, so that there can be any number of them; only the first failing one is
// kept whole.

import { hasThrown } from "../../page/endings.mjs";
import { comesBefore } from "../run/order.mjs";
import { OnlyByTimeWaits } from "./only-by-time.mjs";
import { shorteningOf } from "./shortened.mjs";
import {
  endingsData, failingListOf, failingOf, failingData, failureKey, listedOf, of, pairKey, statesData,
} from "./summary-data.mjs";
import { summaryText } from "./summary-text.mjs";
import { Tally } from "./tally.mjs";
import { Uses } from "./uses.mjs";

/** @typedef {import("./summary-data.mjs").CheckedBy} CheckedBy */
/** @typedef {import("./summary-data.mjs").SummaryEnd} SummaryEnd */
/** @typedef {import("./summary-data.mjs").FailingOutcome} FailingOutcome */
/** @typedef {import("./summary-data.mjs").FailureInShort} FailureInShort */
/** @typedef {import("./summary-data.mjs").SummaryOutcome} SummaryOutcome */
/** @typedef {import("./summary-data.mjs").EndState} EndState */
/** @typedef {import("./summary-data.mjs").Stop} Stop */
/** @typedef {import("./summary-data.mjs").SummaryData} SummaryData */

/**
 * @typedef {object} SummaryOptions
 * @property {"watch" | "store" | "refuse"} ordinary how ordinary reads and writes were seen
 * @property {"fail" | "allow"} races
 * @property {"fail" | "allow"} [unrecorded]
 * @property {string} [checkedBy] which simulator checks runs; undefined: they aren't checked
 * @property {boolean} [preloads] whether node's own options load code before the recorder
 */

// In the order in which they are reported.
const FAILING = ["deadlock", "stuck", "failed", "check", "not linearizable", "lost wake-up", "race", "limit"];
const PASSING = ["finished", ...FAILING];

const CHANGES_ALONE =
  "ordinary reads were not seen, and of ordinary writes only what they changed between two calls, so unordered " +
  "accesses were not looked for";

/** What no run of a mode has seen. */
const UNSEEN = { watch: [], store: [CHANGES_ALONE], refuse: [CHANGES_ALONE] };

/** What else a run may not have seen, if other code was loaded before the recorder. */
const UNSEEN_BEFORE =
  "node's own options, as --require, loaded code first: "
  + "accesses by typed arrays and Atomics that it kept were not seen";

/** @type {("failing" | "passing")[]} */
const BOTH = ["failing", "passing"];

export class Summary {
  /** @type {Set<string>} versions of node that ran programs, and that weren't tried */
  untriedNodes = new Set();

  /** @param {SummaryOptions} options */
  constructor({ ordinary, races, unrecorded = "fail", checkedBy, preloads = false }) {
    this.ordinary = ordinary;
    this.unrecorded = unrecorded;
    this.preloads = preloads;
    this.races = races;
    /** Which simulators check runs. */
    this.versions = new Set(checkedBy === undefined ? [] : [checkedBy]);
    this.runs = 0;
    this.failed = 0;
    this.checked = 0;
    this.calls = 0;
    this.accesses = 0;
    /** How many runs had unordered accesses. */
    this.raced = 0;
    /** How many failing runs fail only after the early end of a timed wait. */
    this.early = 0;
    this.onlyByTime = new OnlyByTimeWaits();
    /** How many scripts hold some of the ordinary writes only. */
    this.parts = 0;
    this.endings = { failing: new Tally(), passing: new Tally() };
    /** How many of the runs that ended as `failed` threw. */
    this.threw = 0;
    /** @type {Tally<FailureInShort>} */
    this.failures = new Tally();
    /** @type {Record<"failing" | "passing", Tally<EndState>>} by their hashes */
    this.states = { failing: new Tally(), passing: new Tally() };
    /** @type {Tally<{ lines: string[] }>} */
    this.pairs = new Tally();
    this.scriptless = new Tally();
    /** What agents used that isn't recorded, and what programs used that the machine answers. */
    this.uses = { unrecorded: new Uses(), real: new Uses() };
    /** @type {import("../seeds/first-again.mjs").Remembering | undefined} */
    this.remembers = undefined;
    /** @type {FailingOutcome | undefined} the first failing run */
    this.failing = undefined;
    /** @type {import("../seeds/job.mjs").ShortenedByJob | undefined} the result of its shortening */
    this.shortened = undefined;
  }

  /** @param {SummaryOutcome} outcome */
  add(outcome) {
    const { seed, ending, fails, state, calls, ordinary } = outcome;
    const which = fails ? "failing" : "passing";
    this.runs += 1;
    this.calls += calls;
    this.accesses += ordinary;
    if (outcome.checked) this.checked += 1;
    this.endings[which].add(ending, seed);
    const about = { ending, shown: state.shown, named: state.named };
    this.states[which].add(state.hash, seed, about, outcome.onlyIf !== undefined);
    this.#addRaces(outcome);
    this.#addScript(outcome);
    this.onlyByTime.add(outcome);
    this.uses.unrecorded.add(outcome.unrecorded ?? [], seed);
    this.uses.real.add(outcome.real ?? [], seed);
    if (!fails) return;
    this.failed += 1;
    if (outcome.onlyIf !== undefined) this.early += 1;
    this.#addFailure(outcome);
    this.#addFailing(outcome);
  }

  /**
   * Adds all that is about other runs.
   * @param {SummaryData} data
   */
  join(data) {
    const { runs, failed, calls, accesses, firstFailing } = data;
    this.runs += runs;
    this.failed += failed;
    this.calls += calls;
    this.accesses += accesses ?? 0;
    this.early += data.early;
    this.onlyByTime.join(data.onlyByTime);
    this.#joinChecks(data.sabsim);
    for (const which of BOTH) {
      this.endings[which].join(data.endings[which].map(({ ending, ...entry }) => ({ ...entry, ...of(ending) })));
      const { listed, others } = data.states[which];
      const entries = listed.map(({ hash, ending, shown, named, ...entry }) =>
        ({ ...entry, ...of(hash, { ending, shown, named }) }));
      this.states[which].join(entries, others);
    }
    this.#joinFailures(data);
    this.raced += data.races.runs;
    const { listed, others } = data.races.pairs;
    this.pairs.join(listed.map(({ lines, ...entry }) => ({ ...entry, ...of(pairKey(lines), { lines }) })), others);
    const { parts, none } = data.scripts;
    this.parts += parts;
    this.scriptless.join(none.listed.map(({ why, ...entry }) => ({ ...entry, ...of(why) })), none.others);
    this.uses.unrecorded.join(data.unrecorded);
    this.uses.real.join(data.real);
    for (const version of data.untriedNodes ?? []) this.untriedNodes.add(version);
    if (data.remembers !== null) this.#addRemembering(data.remembers);
    if (firstFailing !== null) this.#addFailing(failingOf(firstFailing));
  }

  /**
   * @param {SummaryEnd} [ending]
   * @returns {SummaryData} all that is reported, as an object of JSON: the plain text is made from it
   */
  data(ending = {}) {
    const { stopped = null, missing = [], kept = null, notKept = [], problems = [] } = ending;
    return {
      stopped,
      missing,
      runs: this.runs,
      failed: this.failed,
      endings: {
        failing: endingsData(FAILING, this.endings.failing), passing: endingsData(PASSING, this.endings.passing),
      },
      firstFailing: this.failing === undefined ? null : failingData(this.failing),
      early: this.early,
      onlyByTime: this.onlyByTime.data(),
      threw: this.threw,
      failures: failingListOf(this.failures, (_, { ending, message, sources }) => ({ ending, message, sources })),
      shortened: this.shortened === undefined ? null : shorteningOf(this.shortened, this.failing),
      races: {
        allowed: this.races === "allow", runs: this.raced,
        pairs: failingListOf(this.pairs, (_, { lines }) => ({ lines })),
      },
      unrecorded: { allowed: this.unrecorded === "allow", ...this.uses.unrecorded.data() },
      real: this.uses.real.data(),
      remembers: this.remembers ?? null,
      states: { failing: statesData(this.states.failing), passing: statesData(this.states.passing) },
      sabsim: this.#checksData(),
      scripts: { parts: this.parts, none: listedOf(this.scriptless, (why) => ({ why })) },
      calls: this.calls,
      accesses: this.ordinary === "watch" ? this.accesses : null,
      unseen: this.preloads ? [...UNSEEN[this.ordinary], UNSEEN_BEFORE] : UNSEEN[this.ordinary],
      untriedNodes: [...this.untriedNodes].sort(),
      kept,
      notKept,
      problems,
    };
  }

  /** @param {Stop} [stopped] if not all runs were made @returns {string} lines, each with its end */
  text(stopped) {
    return summaryText(this.data({ stopped }));
  }

  /** @param {SummaryOutcome} outcome */
  #addRaces({ seed, races, onlyIf }) {
    if (races.length === 0) return;
    this.raced += 1;
    const pairs = new Map(races.map(({ lines }) => [pairKey(lines), lines]));
    for (const [key, lines] of pairs) this.pairs.add(key, seed, { lines }, onlyIf !== undefined);
  }

  /** @param {SummaryOutcome} outcome */
  #addScript({ seed, noScript, scriptHolds }) {
    if (noScript !== undefined) this.scriptless.add(noScript, seed);
    if (scriptHolds === "touched") this.parts += 1;
  }

  /** @param {import("../seeds/first-again.mjs").Remembering} found of several, that of the least seed is kept */
  #addRemembering(found) {
    if (this.remembers === undefined || this.remembers.seed > found.seed) this.remembers = found;
  }

  /** @param {SummaryOutcome} outcome that fails */
  #addFailure({ seed, ending, detail, failure, onlyIf }) {
    if (hasThrown(ending, detail)) this.threw += 1;
    if (failure === undefined) return;
    const about = { ending, ...failure };
    this.failures.add(failureKey(about), seed, about, onlyIf !== undefined);
  }

  /** @param {SummaryData} data */
  #joinFailures({ threw, failures: { listed, others } }) {
    this.threw += threw;
    const entries = listed.map(({ runs, early, first, ...about }) =>
      ({ runs, early, first, ...of(failureKey(about), about) }));
    this.failures.join(entries, others);
  }

  /** @param {FailingOutcome} failing */
  #addFailing(failing) {
    if (this.failing === undefined || !comesBefore(this.failing, failing)) this.failing = failing;
  }

  /** @param {CheckedBy} sabsim */
  #joinChecks({ versions, checked }) {
    this.checked += checked;
    for (const version of versions) this.versions.add(version);
  }

  /** @returns {CheckedBy} */
  #checksData() {
    const { checked, versions, ordinary } = this;
    return { asked: versions.size > 0, versions: [...versions].sort(), checked, judges: ordinary === "watch" };
  }
}
