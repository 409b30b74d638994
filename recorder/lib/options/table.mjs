// All options, a row for each: what it may be, what serves if it isn't given, who takes it, what it doesn't go with,
// and what is said about it. A row also says whether summaries can be joined only if it is the same, and whether a
// replay depends on it. The command line, the library and the summary go by it. `tools/sections.mjs` makes tables of
// docs/RECORDER.md and declared types from it.

import { DEFAULT_SECONDS, MOST_JOBS, SCRIPT_LIMITS } from "../../script/limits.mjs";
import {
  AGENTS, AGENTS_THAT_CANT, BOOLEAN, BUFFERS, FUNCTION, OPERATIONS_OR_ANY, PART_OR_NEVER, PATH_OR_URL, PROGRAM, SEED,
  SEEDS, SHARD, SIGNAL, STRATEGY, WORDS, above0, choice, named, upTo, whole,
} from "./option-kinds.mjs";

/**
 * @typedef {"record" | "explore" | "every" | "trial" | "command"} Taker the library's functions (`every`:
 * `everySchedule`; `trial`: those of `sabsim/test`), and the command line
 */

/**
 * @typedef {object} Exclusion what an option doesn't go with
 * @property {"program" | "all"} of a whole program, or the search of every schedule
 * @property {string} why
 * @property {unknown[]} [values] which of its values don't; all, if it isn't given
 */

/**
 * @typedef {object} Option
 * @property {import("./option-kinds.mjs").OptionKind} kind
 * @property {Taker[]} of who takes it
 * @property {unknown} [ifNone] what serves if it isn't given
 * @property {unknown} [assumed] the same, if summaries and kept runs are to say that it wasn't given
 * @property {boolean} [isNeeded] whether it must be given
 * @property {boolean} [isShared] whether summaries can be joined only if it is the same
 * @property {boolean} [isReplayed] whether a run by a kept script depends on it
 * @property {{ of: "agents" | "program", why?: string }} [only] whether it is about agents or programs alone, and why
 * @property {Exclusion[]} [not] what it doesn't go with
 * @property {string} [word] its name on the command line, if that is another one
 * @property {string} [letter] a short name on the command line
 * @property {[argument: string, says: string]} help what comes behind its name on the command line, and what is said
 * about it there. The help leaves out the links and the backticks
 * @property {string} [inLibrary] what is said about it in the library, if that is something else
 * @property {string} [more] what the help leaves out
 * @property {string} [orElse] what serves if it isn't given, in words, if no value says it
 * @property {string} [elseInLibrary] the same in the library, if that is something else
 */

const MOST_SECONDS = 3_600;

/** The longest time of a timer, in milliseconds. */
const MOST_EARLY = 2 ** 31 - 1;

/** @type {Taker[]} */
const LIBRARY = ["record", "explore"];
/** @type {Taker[]} */
const ALL = [...LIBRARY, "command"];
/** @type {Taker[]} */
const OF_MANY = ["explore", "command"];
/** @type {Taker[]} */
const COMMAND = ["command"];
/** @type {Taker[]} */
const OF_EVERY = ["every", "trial", "command"];
/** @type {Taker[]} */
const OF_TRIAL = ["trial", "command"];

const MOST_STATES = 20_000_000;
const MOST_ROUNDS = 1_000;
const DEFAULT_ROUNDS = 8;

/** The seeds whose runs are compared with what was learned of agents, if none are given. */
export const SEEDS_OF_ALL = Object.freeze({ first: 1, last: 300 });

/**
 * @type {(kind: import("./option-kinds.mjs").OptionKind, ifNone: unknown, help: Option["help"]) => Option} of each run
 */
const rule = (kind, ifNone, help) => ({ kind, of: ALL, ifNone, isShared: true, help });

/** @type {typeof rule} of each run, and of one by a kept script too */
const replayed = (kind, ifNone, help) => ({ ...rule(kind, ifNone, help), isReplayed: true });

/** @type {(words: string[], help: Option["help"]) => Option} it is one of some words, the first if none is given */
const word = (words, help) => replayed(choice(words), words[0], help);

/** @type {(why: string, rest: Omit<Option, "of">) => Option} it is about programs alone, and says how they run */
const ofPrograms = (why, rest) => ({ ...rest, of: ALL, only: { of: "program", why } });

/** @type {Option["only"]} */
const OF_AGENTS = {
  of: "agents", why: "it is about a module of agents, and a program makes its own threads and memory",
};
/** @type {Option["only"]} */
const NOT_YET = { of: "agents", why: "it isn't there for programs yet" };

/** @type {(why: string, ...values: unknown[]) => Exclusion[]} it doesn't go with the search of every schedule */
const notInAll = (why, ...values) => [{ of: "all", why, ...(values.length > 0 && { values }) }];

const NOT_LEARNED = notInAll("it is about a whole program, and only a module of agents can be learned");

/** What serves for the options that a module of agents may set. */
const OF_SETUP = "as the module's `setup` says";

/** @type {Readonly<Record<string, Option>>} by their names */
export const OPTIONS = Object.freeze({
  module: { kind: PATH_OR_URL, of: LIBRARY, isNeeded: true, only: { of: "agents" },
    help: ["", "the agents' module: a URL, or a path, from the folder of the file that calls `record`"] },
  program: { kind: { ...PATH_OR_URL, text: named("the name of a program's main module").text }, of: ALL, isShared: true,
    isNeeded: true, only: { of: "program" }, not: NOT_LEARNED,
    help: ["FILE", "runs a [program of several threads](#whole-programs), in place of a module of agents. FILE is its "
    + "main module, which makes its own threads and shared memory"],
    inLibrary: "in place of `module` the main module of a [whole program](#whole-programs), which makes its own "
    + "threads and shared memory: a URL, or a path, as for `module`" },
  agents: { ...rule(AGENTS, undefined, ["N", "how many agents there are"]), orElse: OF_SETUP, only: OF_AGENTS },
  buffers: { ...rule(BUFFERS, undefined, ["N,..", "the bytes of each buffer, one to four"]), orElse: OF_SETUP,
    only: OF_AGENTS },
  noBlock: { ...rule(AGENTS_THAT_CANT, undefined,
    ["A", "agent A can't block: its Atomics.wait throws TypeError. May be given more than once"]), orElse: OF_SETUP,
    only: OF_AGENTS, inLibrary: "the agents that can't block: their Atomics.wait throws TypeError" },
  seed: { kind: SEED, of: ["record"], ifNone: 1, help: ["", "the seed of the run, which draws who moves next"] },
  args: { kind: WORDS, of: LIBRARY, ifNone: Object.freeze([]), help: ["", "words for the agents, or for the program"] },
  seeds: { kind: SEEDS, of: OF_MANY, ifNone: Object.freeze({ first: 1, last: 100 }),
    help: ["A..B", "the seeds, or one seed"], more: "With `--all` they are 1..300 if none are given, or "
      + "[fewer](#every-schedule) if every schedule can be tried",
    inLibrary: 'as `"1..1000"`, which begins at 1 and ends at 1000; a number: so many of them, from 1 on; or '
    + "`{ first, last }`" },
  shard: { kind: SHARD, of: COMMAND, not: notInAll("it is about the runs of seeds"),
    help: ["K/N", "only the K-th of N parts of these seeds, as for [one of N machines](#on-many-machines): "
    + "merge.mjs joins their summaries"] },
  all: { kind: BOOLEAN, of: OF_TRIAL, ifNone: false,
    help: ["", "tries [every schedule](#every-schedule) of a module of agents. The seeds' runs are compared with what "
    + "was learned; if not every schedule can be tried, it goes on with the seeds. Status 4: not all was done"],
    inLibrary: "tries [every schedule](#every-schedule) of a module of agents, as `everySchedule` does. The test fails "
    + "if something is found, if not every schedule could be tried, and if its time was over before all was done" },
  within: { kind: above0(MOST_SECONDS), of: OF_EVERY, assumed: 60,
    help: ["S", "how many seconds `--all` may take, with the runs of its seeds"],
    inLibrary: "how many seconds the search of every schedule may take, with the runs of its seeds" },
  states: { kind: whole(1, MOST_STATES), of: OF_EVERY, assumed: 1_000_000,
    help: ["N", "how many states `--all` finds at most"],
    inLibrary: "how many states the search of every schedule finds at most" },
  strategy: rule(STRATEGY, "mixed",
    ["HOW", "[who moves next](#who-moves-next): `uniform` (all agents that can move are equally likely), `switch:P` "
    + "(another agent moves next with likelihood P, from 0 to 1), `partial-order` (by random priorities) or `mixed` "
    + "(the seed chooses `partial-order` or a `switch:P`)"]),
  everywhere: rule(BOOLEAN, false,
    ["", "draws who moves next before each call, not only before those by which agents meet in "
    + "[pilot runs](#who-moves-next)"]),
  timeouts: { ...replayed(PART_OR_NEVER, 0.05,
    ["P", "the share of draws, from 0 to 1, that may end a [timed wait](#agents) early, while something else can move. "
    + "0: time passes only if nothing else can move. `never`: not even then, so a lost wake-up is a deadlock"]),
    not: [{ of: "program", values: ["never"], why: "no timer would be due" },
      ...notInAll("it has no time that goes by. Above 0 any wait's time may be over at any moment, and never means "
      + "that it never is", 0)] },
  early: ofPrograms("agents have no timers", { kind: upTo(MOST_EARLY), assumed: 100, isShared: true, isReplayed: true,
    help: ["MS", "a [program's](#whole-programs) timer or timed wait may end early, but only if no thread, task or "
    + "other time is then more than MS milliseconds late. 0: none ends early"],
    inLibrary: "a program's timer or timed wait may end early, but only if no thread, task or other time is then more "
    + "than so many milliseconds late. 0: none ends early" }),
  ordinary: { ...word(["watch", "store", "refuse"],
    ["HOW", "[reads and writes without Atomics](#ordinary-reads-and-writes): `watch` (sees each, and looks for "
    + "unordered accesses), `store` (finds only what changed) or `refuse` (fails a run at a byte that changed)"]),
    only: NOT_YET, not: notInAll("their reads aren't seen", "store", "refuse") },
  races: { ...word(["fail", "allow"],
    ["HOW", "[unordered accesses](#unordered-accesses): two agents access a byte, at least one writes it, they don't "
    + "both use Atomics on just the same bytes, and nothing orders them. `fail`: a run that has some fails, with the "
    + "ending `race`. `allow`: they are only reported"]),
    not: notInAll("a search makes the accesses between two calls at once", "allow") },
  limits: word(["fail", "allow"],
    ["HOW", "a run that [meets a limit](#how-a-run-ends), as one that spins. `fail`: it fails. `allow`: it is only "
    + "reported"]),
  unrecorded: { ...word(["fail", "allow"],
    ["HOW", "shared memory that [isn't recorded](#what-cant-be-recorded), as a SharedArrayBuffer that the code makes "
    + "itself. `fail`: a run in which agents use some fails. `allow`: it is only reported"]),
    only: OF_AGENTS, not: notInAll("what agents do with such memory can't be learned", "allow") },
  stuck: ofPrograms("only programs can be stuck", { kind: choice(["fail", "allow"]), assumed: "fail", isShared: true,
    isReplayed: true, help: ["HOW", "a program's run that is [stuck](#how-a-run-ends). `fail`: it fails. `allow`: it "
    + "is only reported, as for a program that people end by Ctrl-C"] }),
  web: { ...ofPrograms("agents aren't run as in a browser", { kind: BOOLEAN, ifNone: false, isShared: true,
    isReplayed: true, help: ["", "the program is [for browsers](#whole-programs): its main module stands for a page, "
    + "and each Worker runs a script or a module by its URL"] }), not: NOT_LEARNED },
  programOutput: ofPrograms("what agents print is always shown", { kind: choice(["all", "none"]),
    help: ["HOW", "the runs whose output is shown: `all` or `none`"], orElse: "the first seed's run and the kept one",
    elseInLibrary: "the first seed's run" }),
  wasmAccesses: ofPrograms("the shared memory of WebAssembly is recorded in programs alone", {
    kind: choice(["ordinary", "relaxed"]), assumed: "ordinary", isShared: true, isReplayed: true,
    help: ["HOW", "plain aligned accesses of WebAssembly to shared memory are `ordinary`, or `relaxed`, as those of "
    + "C's volatile. Relaxed ones count as loads and stores of Atomics, and have no data race with these"],
    more: "They also order other accesses, whose data races aren't found then" }),
  clock: { ...word(["run", "real"],
    ["WHICH", "the time that clocks show agents: `run` (the run's own, which comes from the seed) or `real`"]),
    only: NOT_YET, not: notInAll("what agents see of it can't be learned", "real") },
  rounds: { kind: whole(1, MOST_ROUNDS), of: ALL, assumed: DEFAULT_ROUNDS, isShared: true, only: OF_AGENTS,
    help: ["N", "how often an agent's [`again()`](#agents-that-choose) returns true in a run of a seed, at most"],
    more: "What `--all` searches has any number of rounds" },
  each: { ...replayed(OPERATIONS_OR_ANY, undefined,
    ["N", "how many [operations](#objects) of an object each agent makes at most, or `any`"]), only: OF_AGENTS,
    more: "`any` is as many rounds as `--rounds` says, and in what `--all` searches any number of them",
    orElse: "8; with `--all` ever more" },
  maxMoves: rule(whole(1, SCRIPT_LIMITS.moves), SCRIPT_LIMITS.moves, ["M", "how many moves a run may have"]),
  seconds: rule(above0(MOST_SECONDS), DEFAULT_SECONDS, ["S", "for how long an agent may make no call"]),
  fresh: { kind: BOOLEAN, of: OF_MANY, ifNone: false, isShared: true,
    help: ["", "starts new workers for each seed"], more: "A kept run of a program notes it, and is replayed so" },
  failFast: { kind: BOOLEAN, of: OF_MANY, ifNone: false, isShared: true, help: ["", "ends at the first failing run"],
    more: "That is the one of the lowest seed, whatever the number of jobs. Runs in which a wait ended early don't "
    + "count" },
  checkEvery: { kind: whole(0, Number.MAX_SAFE_INTEGER), of: OF_MANY, ifNone: 1, isShared: true, word: "check",
    help: ["N", "the simulator checks every run that fails, and one in N of the others; 0: none at all"],
    inLibrary: "the simulator checks every run that fails, and one in so many of the others; 0: none at all" },
  init: { kind: FUNCTION, of: LIBRARY, only: OF_AGENTS, help: ["", "fills the buffers before the run, and before each "
    + "of its pilots, in place of the module's `init`. It is called in this thread"] },
  check: { kind: FUNCTION, of: LIBRARY, only: OF_AGENTS, help: ["", "is called after a run that finished, in this "
    + "thread, in place of the module's `check`. What it throws fails the run, as does `false` or an error that it "
    + "returns"] },
  sabsim: { kind: PROGRAM, of: ALL,
    help: ["PATH", "the native program that checks runs in place of the simulator's module"],
    orElse: "the one that SABSIM of the environment names; else the module",
    inLibrary: "the path of the native program that checks runs in place of the simulator's module, from the working "
    + "directory. `false`: runs aren't checked" },
  jobs: { kind: whole(1, MOST_JOBS), of: OF_MANY, help: ["N", "how many groups of workers run side by side"],
    more: "Outcomes don't depend on it", orElse: "one at first; after 1 s, as many more as there are idle processors",
    inLibrary: "how many groups of workers run side by side. A single one runs in this process; each of several has a "
    + "process of its own. With several, `init` and `check` can't be given: they are functions of this process",
    elseInLibrary: "1" },
  format: { kind: choice(["plain", "json"]), of: COMMAND, ifNone: "plain",
    help: ["FORM", "how the summary is printed: `plain`, or [`json`](FORMATS.md#the-recorders-summary), which is one "
    + "line"] },
  out: { kind: { ...named("the path of a folder"), text: named("the name of a folder").text }, of: OF_TRIAL,
    help: ["DIR", "the folder for the script and the report of the first failing run, or of the run of `--replay`. "
    + "Without it nothing is written"],
    inLibrary: "the folder in which the failing run is kept. A relative path begins at the working directory",
    elseInLibrary: "a folder of each test's own among the system's temporary files, the same one each time" },
  noShorten: { kind: BOOLEAN, of: COMMAND, ifNone: false, help: ["", "keeps that run as its seed makes it. Else the "
    + "[shortest run](#the-shortest-run) that fails in the same way is kept, with the run of the seed beside it"] },
  shorten: { kind: BOOLEAN, of: ["record", "trial"], help: ["", "whether [the shortest run](#the-shortest-run) that "
    + "fails in the same way takes the place of the run that was found: in what is returned, shown and kept"],
    elseInLibrary: "false for `record`, and true in tests" },
  replay: { kind: named("the name of a script that was kept"), of: COMMAND, not: notInAll("it makes one run"),
    help: ["FILE", "runs the agents [once](#the-shortest-run), by the schedule of a kept or written script, in this "
    + "process, so that a debugger can stop in them (node --inspect-brk recorder/record.mjs ..). Or runs a program, by "
    + "its kept seed-N.program.json. Status 3: the code no longer does the same"] },
  signal: { kind: SIGNAL, of: ["explore"], help: ["", "ends all runs when it is aborted. Its reason is thrown"] },
  trace: { kind: BOOLEAN, of: LIBRARY, ifNone: false,
    help: ["", "whether the outcome has its trace, and the code of the files that it names"] },
  help: { kind: BOOLEAN, of: COMMAND, letter: "h", help: ["", "this text"] },
  version: { kind: BOOLEAN, of: COMMAND, letter: "V", help: ["", "the version"] },
});

/** @param {Taker} taker @returns {[string, Option][]} its options, by their names */
export const optionsOf = (taker) => Object.entries(OPTIONS).filter(([, { of }]) => of.includes(taker));

/** @param {Taker} taker @returns {Record<string, any>} what serves if it isn't given, by the options' names */
export function defaultsOf(taker) {
  const given = optionsOf(taker).filter(([, { ifNone }]) => ifNone !== undefined);
  return Object.fromEntries(given.map(([name, { ifNone }]) => [name, ifNone]));
}

/** @param {string} name of an option @returns {any} what the code takes it for if it isn't given */
export const assumed = (name) => OPTIONS[name].assumed;

/** @param {Option} row @returns {string | undefined} what serves if it isn't given, as the help prints it */
export function defaultText({ ifNone, assumed: taken = ifNone, orElse }) {
  if (typeof taken !== "object") return orElse ?? (taken === undefined || taken === false ? undefined : `${taken}`);
  const { first, last } = /** @type {{ first: number, last: number }} */ (taken);
  return `${first}..${last}`;
}

/** @param {string} text what is said about an option @returns {string} without its links */
export const unlinked = (text) => text.replaceAll(/\[([^\]]+)\]\([^)]+\)/g, "$1");

/** @param {string} name of an option, such as `maxMoves` @returns {string} as the command line has it, `max-moves` */
export const optionWord = (name) =>
  (OPTIONS[name]?.word ?? name).replaceAll(/[A-Z]/g, (letter) => `-${letter.toLowerCase()}`);
