// The form of a summary as JSON (docs/FORMATS.md): whether what a file has is one.

/**
 * @typedef {import("./summary-data.mjs").SummaryData & {
 *   summary: number, asked: import("./requested-runs.mjs").RequestedRuns, seeds:
 * import("../seeds/ranges.mjs").SeedRange[], }} WholeSummary what is reported about many runs, and what was asked for
 */

/** The number of this form: another form has another number. */
export const FORM = 4;

/** @typedef {(value: unknown, place: string) => string | undefined} FormCheck it returns where a value isn't right */

/** @type {(holds: (value: any) => boolean) => FormCheck} */
const that = (holds) => (value, place) => (holds(value) ? undefined : place);

/** @type {(check: FormCheck) => FormCheck} */
const orNull = (check) => (value, place) => (value === null ? undefined : check(value, place));

/** @type {(check: FormCheck) => FormCheck} */
const orNone = (check) => (value, place) => (value === undefined ? undefined : check(value, place));

/** @type {(check: FormCheck) => FormCheck} */
const list = (check) => (value, place) => {
  if (!Array.isArray(value)) return place;
  return value.map((each, at) => check(each, `${place}[${at}]`)).find((wrong) => wrong !== undefined);
};

/** @type {(members: Record<string, FormCheck>) => FormCheck} */
const object = (members) => (value, place) => {
  if (typeof value !== "object" || value === null || Array.isArray(value)) return place;
  const given = /** @type {Record<string, unknown>} */ (value);
  const checks = Object.entries(members);
  const found = checks.map(([name, check]) => check(given[name], place === "" ? name : `${place}.${name}`));
  return found.find((wrong) => wrong !== undefined);
};

const whole = that((value) => Number.isSafeInteger(value) && value >= 0);
const text = that((value) => typeof value === "string");
const flag = that((value) => typeof value === "boolean");
const anything = that(() => true);
const texts = list(text);

/** @type {FormCheck} */
const range = (value, place) => object({ first: whole, last: whole })(value, place) ??
  that(({ first, last }) => first <= last)(value, place);

const change = object({ before: whole, after: whole });

const COUNTS = { runs: whole, first: whole };
const PLACE = { block: whole, byte: whole };

const standing = object({
  agent: whole, does: text, call: orNull(whole), place: orNull(text), block: orNull(whole), byte: orNull(whole),
  file: orNull(text), line: orNull(whole), column: orNull(whole),
});

/** @type {(members: Record<string, FormCheck>) => FormCheck} */
const listed = (members) => object({ listed: list(object({ ...members, ...COUNTS })), others: whole });

const endings = list(object({ ending: text, ...COUNTS }));
const states = listed({ early: whole, ending: text, hash: text, shown: texts, named: orNull(text) });

const MEMBERS = object({
  summary: whole,
  asked: object({
    module: text, digest: text, seeds: list(range), shard: orNull(object({ number: whole, of: whole })),
    options: object({
      ordinary: that((value) => ["watch", "store", "refuse"].includes(value)),
      races: that((value) => ["fail", "allow"].includes(value)),
      unrecorded: that((value) => ["fail", "allow"].includes(value)), preloads: flag, args: anything,
    }),
  }),
  seeds: list(range),
  stopped: orNull(object({ why: text, wanted: whole })),
  missing: list(range),
  runs: whole,
  failed: whole,
  endings: object({ failing: endings, passing: endings }),
  firstFailing: orNull(object({
    seed: whole, ending: text, detail: texts, onlyIf: orNull(text), noScript: orNull(text), standing: list(standing),
  })),
  early: whole,
  onlyByTime: object({
    listed: list(object({ agent: whole, line: orNull(text), milliseconds: whole, ...PLACE, ...COUNTS })), others: whole,
    served: list(object(PLACE)),
  }),
  threw: whole,
  failures: listed({ early: whole, ending: text, message: texts, sources: texts }),
  shortened: orNull(object({
    runs: whole, changes: change, calls: change, stopped: orNull(text), unchanged: orNull(text), checked: flag,
    detail: texts, onlyIf: orNull(text),
  })),
  races: object({ allowed: flag, runs: whole, pairs: listed({ early: whole, lines: texts }) }),
  unrecorded: object({ allowed: flag, runs: whole, used: listed({ what: text }) }),
  real: object({ runs: whole, used: listed({ what: text }) }),
  remembers: orNull(object({ seed: whole, differs: text, was: text, is: text, threw: flag, real: flag })),
  states: object({ failing: states, passing: states }),
  sabsim: object({ asked: flag, versions: texts, checked: whole, judges: flag }),
  scripts: object({ parts: whole, none: listed({ why: text }) }),
  calls: whole,
  accesses: orNull(whole),
  unseen: texts,
  untriedNodes: orNone(texts),
  kept: orNull(object({ folder: text, path: text, files: texts })),
  notKept: texts,
  problems: texts,
});

/**
 * Why a value is no summary.
 * @param {unknown} value of JSON
 * @returns {string | undefined} undefined if it is one
 */
export function whyNoSummary(value) {
  const { summary: form } = /** @type {{ summary?: unknown }} */ (value ?? {});
  if (form === undefined) return "it isn't what `record.mjs --format json` writes";
  if (form !== FORM) return `it is of form ${JSON.stringify(form)}, and this recorder writes and reads form ${FORM}`;
  const wrong = MEMBERS(value, "");
  return wrong === undefined ? undefined : `its member ${wrong} is missing, or isn't what it must be`;
}
