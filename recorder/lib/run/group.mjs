// A group of workers: one for each agent, and one for their referee. All end with the process, however it ends.

import { SCRIPT_LIMITS } from "../../script/limits.mjs";
import { isAgentsFile } from "../agent/frames.mjs";
import { Board } from "../board/board.mjs";
import { memoryOf } from "../board/group-memory.mjs";
import { waysOf } from "../board/strategy/ways.mjs";
import { needsRightNames, planOf } from "../options/plan.mjs";
import { Refused } from "../options/refused.mjs";
import { runKindOf } from "../options/run-kinds.mjs";
import { assumed, defaultsOf } from "../options/table.mjs";
import { firstWorkers, learns } from "../processes/first-workers.cjs";
import { framesOf } from "../processes/place-of-thread.mjs";
import { begunThread } from "../processes/thread.mjs";
import { within } from "../processes/within.mjs";
import { problemIn } from "./given-calls.mjs";
import { loadProblem } from "./words/load-problem.mjs";
import { RefereeThread } from "./referee-thread.mjs";
import { TextMaker } from "./run-snapshot.mjs";

/** @typedef {import("../processes/thread.mjs").Thread} Thread */
/** @typedef {import("./outcome.mjs").Aside} Aside */
/** @typedef {import("./outcome.mjs").Judgement} Judgement */
/** @typedef {import("./outcome.mjs").One} One */
/** @typedef {import("./outcome.mjs").Outcome} Outcome */
/** @typedef {import("./outcome.mjs").WantedRun} WantedRun */

/** @typedef {import("../agent/loaded-module.mjs").Has} Has */
/** @typedef {{ thread: Thread, has: Has }} Loaded */

/**
 * @typedef {object} OwnOptions what a group is given besides options of the library, or in place of some
 * @property {string} module the URL of the agents' module, or of the program's main one
 * @property {unknown} [program] the same, if it is a program, which starts its threads itself
 * @property {import("../options/run-kinds.mjs").RunKind} [kind] of its runs, which is made of these options
 * @property {string[]} args for the agents
 * @property {string} [strategy] how it is drawn who moves next, as `waysOf` takes it
 * @property {boolean} [inTurn] whether agents begin in turn under each seed; else some seeds draw their order
 * @property {number} maxMoves
 * @property {number} [cutAfter] after how many calls of an agent its run is cut, which is no failure; undefined: never
 * @property {import("../agent/own-clock.mjs").ChosenTime} [chosenTime] that the tool chooses when time passes for each
 * agent, and which random numbers it draws; else the run has a clock, and the seed draws
 * @property {number} seconds for how long an agent may make no call
 * @property {boolean} fresh
 * @property {boolean} [isBrief] whether outcomes of runs that pass have no bytes and answers
 * @property {number} [loadSeconds] how long the module may take to be loaded
 * @property {number} [logEvents] how many events the log has room for; as `Log.memory` has it if it isn't given
 */

/** @typedef {import("../../recorder.cjs").WithBuffers} OfBuffers */
/** @typedef {Omit<import("../../options.cjs").OfModule, "program">} OfModule */
/** @typedef {Omit<import("../../options.cjs").OfProgram, "program" | "module">} OfProgram */
/** @typedef {import("../../options.cjs").RunOptions & OfModule & OfProgram} LibraryOptions */
/** @typedef {OwnOptions & Omit<LibraryOptions, keyof OwnOptions | "sabsim">} GroupOptions */

/**
 * The options that always have a value.
 * @typedef {"strategy" | "everywhere" | "timeouts" | "maxMoves" | "loadSeconds"} HasDefault
 */

const DEFAULT_LOAD_SECONDS = 30;

/** So many agents use an object at most, if their number isn't given. */
const AGENTS_OF_OBJECT = 4;

/** How many operations of an object an agent makes at most, if that isn't given. */
const EACH = 8;
const AGENT_MODULE = new URL("../agent/agent-worker.mjs", import.meta.url);

/**
 * @param {GroupOptions} options
 * @param {Has} has what a module of an object has
 * @returns {GroupOptions} with the number of agents
 */
const withAgents = (options, { setup }) =>
  ({ ...options, agents: options.agents ?? /** @type {any} */ (setup)?.agents ?? AGENTS_OF_OBJECT });

/**
 * A part of a group, which is there when it has started.
 * @template Part
 * @param {Part | undefined} part
 * @returns {Part}
 */
function started(part) {
  if (part === undefined) throw new Error("the group of workers hasn't started");
  return part;
}

export class Group {
  /**
   * Starts the workers, and waits until the agents' module is loaded in each.
   * @param {GroupOptions} options
   * @param {() => void} [meanwhile] is called once, while this thread awaits others
   * @returns {Promise<Group>}
   */
  static async open(options, meanwhile = () => {}) {
    const group = new this(options);
    try {
      await group.start(meanwhile);
      return group;
    } catch (error) {
      await group.close();
      throw error;
    }
  }

  /** @param {GroupOptions} options */
  constructor(options) {
    /** @type {GroupOptions & Required<Pick<GroupOptions, HasDefault>>} */
    this.options = { .../** @type {any} */ (defaultsOf("record")), loadSeconds: DEFAULT_LOAD_SECONDS, ...options };
    /** @type {Set<Thread>} all that were started, and weren't ended */
    this.threads = new Set();
    /** Whether they were all ended: one that begins later, for a run that was under way, is ended at once. */
    this.isClosed = false;
    /** @type {Thread[]} the worker of each agent, and one that calls `init` and `check`, if the module has them */
    this.agents = [];
    /** @type {Promise<Thread>[]} agents' workers that don't know yet which agent's they are, as they come */
    this.begun = [];
    /** @type {Promise<Loaded>[]} for some of these the worker that will be there in its place */
    this.next = [];
    /** @type {RefereeThread | undefined} */
    this.referee = undefined;
    /** @type {import("../options/plan.mjs").Plan | undefined} */
    this.plan = undefined;
    /** @type {import("../board/strategy.mjs").Rules | undefined} */
    this.rules = undefined;
    /** @type {ReturnType<typeof memoryOf> | undefined} */
    this.memory = undefined;
    /** @type {Board | undefined} */
    this.board = undefined;
    /** @type {TextMaker | undefined} */
    this.texts = undefined;
    /** @type {import("../every/learning/history-judge.mjs").HistoryJudge | undefined} of agents that use an object */
    this.judge = undefined;
  }

  /**
   * Makes a run for each seed, in their order.
   * @param {WantedRun[]} seeds
   * @param {(outcome: Outcome, judgement: Judgement | undefined, aside: Aside) => void} onOutcome
   * @param {(outcome: Outcome) => void} [onFailing] is called for a failing run before that, and before the next run,
   * whose agents may end the process
   */
  run(seeds, onOutcome, onFailing) {
    return this.#work({ seeds }, onOutcome, onFailing);
  }

  /** Ends all workers; the referee's may be another group's then. */
  async close() {
    this.isClosed = true;
    const { referee, threads } = this;
    this.referee = undefined;
    if (referee !== undefined) threads.delete(referee.thread);
    await Promise.all([...[...threads].map((thread) => thread.stop()), referee?.end()]);
  }

  /**
   * Asks the referee to do something, and does what the referee asks for meanwhile.
   * @param {import("./referee-thread.mjs").Work} work
   * @param {(outcome: Outcome, judgement: Judgement | undefined, aside: Aside) => void} onOutcome
   * @param {(outcome: Outcome) => void} [onFailing] as above
   */
  async #work(work, onOutcome, onFailing) {
    const referee = started(this.referee);
    const { thread } = referee;
    referee.begin(work);
    for (;;) {
      const { message, ended } = await referee.next();
      if (ended !== undefined) throw new Error(`the referee's worker failed: ${ended}`);
      if (message.finished) return;
      if (message.outcome?.fails) {
        onFailing?.(message.outcome);
        thread.post({ taken: true });
      }
      if (message.outcome) this.#handOn(message, onOutcome);
      if (message.replace) {
        await Promise.all(message.replace.map((/** @type {number} */ agent) => this.replace(agent)));
        thread.post({ replaced: true });
      }
      if (message.ask) thread.post({ problem: this.#askedHere(message.ask) });
      if (message.history) thread.post({ verdict: await started(this.judge).verdict(message.history) });
      if (message.locate !== undefined) thread.post({ place: await this.#placeOf(message.locate) });
    }
  }

  /**
   * @param {import("./outcome.mjs").Sent} sent
   * @param {(outcome: Outcome, judgement: Judgement | undefined, aside: Aside) => void} onOutcome
   */
  #handOn({ outcome, judgement, taken, aside }, onOutcome) {
    if (taken === undefined) {
      onOutcome(outcome, /** @type {Judgement | undefined} */ (judgement), aside);
      return;
    }
    this.texts ??= new TextMaker(started(this.plan), started(this.memory).runs, this.options.isBrief === true);
    const { script, events } = this.texts.made(taken);
    // Without a script the run isn't checked.
    const isChecked = judgement !== undefined && script.script !== undefined;
    onOutcome({ ...outcome, ...script }, isChecked ? { ...judgement, events } : undefined, aside);
    this.texts.free(taken);
  }

  /** @param {number} agent whose code goes on @returns {Promise<string | undefined>} file, line and column, if known */
  async #placeOf(agent) {
    const frames = await framesOf(this.agents[agent].worker);
    const own = frames.find(({ file }) => file !== "" && isAgentsFile(file));
    return own && `${own.file}:${own.line}:${own.column}`;
  }

  /**
   * Makes one run.
   * @param {WantedRun} wanted
   * @returns {Promise<One>}
   */
  async one(wanted) {
    /** @type {One[]} */
    const runs = [];
    await this.run([wanted], (outcome, judgement, aside) => void runs.push({ outcome, judgement, aside }));
    return runs[0];
  }

  /** @param {() => void} meanwhile */
  async start(meanwhile) {
    this.#beginUpTo(firstWorkers(this.options));
    const referee = this.beginReferee();
    const loaded = await this.#load(0);
    needsRightNames(loaded.names);
    this.plan = planOf(loaded.isObject ? withAgents(this.options, loaded) : this.options, loaded.setup);
    if (loaded.isObject) await this.#beginJudge();
    const { strategy, everywhere, inTurn = false, timeouts, maxMoves, cutAfter } = this.options;
    this.rules = { agents: this.plan.agents, ways: waysOf(strategy, everywhere), inTurn, timeouts, maxMoves, cutAfter };
    const options = this.refereeOptions(loaded);
    if (options.init !== undefined && this.plan.agents === SCRIPT_LIMITS.agents) {
      throw new Refused(`with ${SCRIPT_LIMITS.agents} agents none is left for the stores of \`init\`: give one less`);
    }
    this.memory = memoryOf(this.plan, this.options.logEvents, options.hasCaller, loaded.isObject);
    this.board = new Board(this.memory.board, this.rules);
    const { memory, plan, rules } = this;
    referee.give({ memory, plan, rules, options });
    const workers = options.hasCaller ? plan.agents + 1 : plan.agents;
    const hasPilots = learns(plan.agents, everywhere);
    const others = Array.from({ length: (hasPilots ? plan.agents : workers) - 1 }, (_, other) => other + 1);
    this.#beginUpTo(others.length + (hasPilots ? workers : 0));
    if (!hasPilots) meanwhile();
    await Promise.all(others.map((worker) => this.#load(worker)));
    await Promise.all(this.agents.map((_, worker) => this.#hand(worker)));
    if (hasPilots) await this.#learn(workers, meanwhile);
    await this.judge?.ready();
  }

  /** Begins the thread that judges the histories of an object. */
  async #beginJudge() {
    const { HistoryJudge } = await import("../every/learning/history-judge.mjs");
    const { args, module, seconds, timeouts } = this.options;
    const { agents, buffers, canBlock } = started(this.plan);
    const noBlock = canBlock.flatMap((can, agent) => (can ? [] : [agent]));
    /** @type {"early" | "never"} */
    const choice = timeouts === "never" ? "never" : "early";
    this.judge = new HistoryJudge({ module, args, place: { agents, buffers, noBlock }, timeouts: choice }, seconds);
    this.begin(this.judge.thread);
  }

  /**
   * Asks for the pilots. Meanwhile the workers load the module that are there afterwards.
   * @param {number} workers how many
   * @param {() => void} meanwhile
   */
  async #learn(workers, meanwhile) {
    this.next = Array.from({ length: workers }, (_, worker) => this.#loaded(worker));
    // If one can't load it, that is reported when it is needed.
    for (const loading of this.next) loading.catch(() => {});
    const learning = this.#work({ learns: true }, () => {});
    meanwhile();
    await learning;
  }

  /** Begins as many workers as there are, so that they are there when others are needed. */
  beginAhead() {
    this.#beginUpTo(this.agents.length);
  }

  /** @returns {RefereeThread} one that evaluates its modules meanwhile, unless it has */
  beginReferee() {
    this.referee = new RefereeThread();
    this.begin(this.referee.thread);
    return this.referee;
  }

  /** @param {URL} root the module that a worker will be given, which begins */
  thread(root) {
    return this.begin(begunThread(root));
  }

  /** @param {Thread} thread that has begun, and that this group is to end @returns {Thread} */
  begin(thread) {
    this.threads.add(thread);
    if (this.isClosed) void thread.stop();
    return thread;
  }

  /** @param {number} count how many agents' workers are to have begun */
  #beginUpTo(count) {
    const { module, args, ordinary, clock, unrecorded, rounds = assumed("rounds"), chosenTime } = this.options;
    const { agents, each: most = EACH } = this.options;
    const each = most === "any" ? Infinity : most;
    const begun = Array.from({ length: count - this.begun.length }, () => this.thread(AGENT_MODULE));
    /** @type {((thread: Thread) => void)[]} */
    const awaited = [];
    for (const thread of begun) {
      thread.give(AGENT_MODULE, { module, args, ordinary, clock, unrecorded, rounds, chosenTime, count: agents, each });
      this.begun.push(new Promise((done) => awaited.push(done)));
      void thread.next().then(() => awaited.shift()?.(thread));
    }
  }

  /**
   * What the referee needs to make runs.
   * @param {{ hasInit: boolean, hasCheck: boolean }} module
   */
  refereeOptions({ hasInit, hasCheck }) {
    const { init, check, module, seconds, fresh, trace, isBrief, ordinary } = this.options;
    const { races, limits, unrecorded } = this.options;
    /** @type {(own: OfBuffers | undefined, hasOwn: boolean) => "library" | "module" | undefined} */
    const whose = (own, hasOwn) => (own !== undefined ? "library" : hasOwn ? "module" : undefined);
    const asked = { init: whose(init, hasInit), check: whose(check, hasCheck), kind: runKindOf(this.options) };
    const hasCaller = asked.init === "module" || asked.check === "module";
    return { module, seconds, fresh, trace, isBrief, ordinary, races, limits, unrecorded, hasCaller, ...asked };
  }

  /**
   * Calls what the library was given, in this thread.
   * @param {"init" | "check"} name
   * @returns {string} what went wrong in it, as "threw ..", or nothing
   */
  #askedHere(name) {
    const { args } = this.options;
    const { agents } = started(this.plan);
    return problemIn(this.options[name], started(this.memory).buffers, { agents, args: [...args] });
  }

  /** @param {number} agent whose worker is ended, if it has begun, and started anew */
  async replace(agent) {
    const loading = this.next[agent] ?? this.#loaded(agent);
    delete this.next[agent];
    await this.agents[agent]?.stop();
    this.threads.delete(this.agents[agent]);
    this.agents[agent] = (await loading).thread;
    await this.#hand(agent);
    started(this.board).turn.arrive(agent);
  }

  /** @param {number} agent @returns {Promise<Has>} what its module has */
  async #load(agent) {
    const { thread, has } = await this.#loaded(agent);
    this.agents[agent] = thread;
    return has;
  }

  /**
   * A worker that has loaded the module for an agent.
   * @param {number} agent
   * @returns {Promise<Loaded>}
   */
  async #loaded(agent) {
    const { module } = this.options;
    this.#beginUpTo(1);
    const thread = await this.inTime(/** @type {Promise<Thread>} */ (this.begun.shift()));
    thread.post({ agent });
    const { message, ended } = await this.inTime(thread.next());
    if (ended !== undefined) throw new Refused(`${module} can't be loaded: its worker ended (${ended})`);
    if (message.failed !== undefined) throw new Refused(loadProblem(module, message.failed));
    return { thread, has: message };
  }

  /** @param {number} agent that gets the shared memory, and then plays by the board */
  async #hand(agent) {
    const thread = this.agents[agent];
    const { memory, plan, rules } = this;
    thread.onEnd = (why) => started(this.board).turn.die(agent, why);
    thread.post({ memory, plan, rules });
    const { ended } = await this.inTime(thread.next());
    if (ended !== undefined) throw new Refused(`${this.options.module} can't be loaded: its worker ended (${ended})`);
  }

  /**
   * @template T
   * @param {Promise<T>} promise that is awaited, but not for ever
   * @returns {Promise<T>}
   */
  async inTime(promise) {
    const { loadSeconds: seconds } = this.options;
    const loaded = await within(promise, seconds);
    if (loaded === undefined) throw new Refused(`${this.options.module} wasn't loaded within ${seconds} s`);
    return loaded;
  }
}
