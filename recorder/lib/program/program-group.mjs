// A group of threads that run a program, and the thread of their referee. Some threads are ready; a run that needs more
// gets more. A thread that can't leave its code can't begin again: another one takes its place. If that happens again
// and again, others begin in advance.

import { MessageChannel } from "node:worker_threads";
import { SCRIPT_LIMITS } from "../../script/limits.mjs";
import { Board } from "../board/board.mjs";
import { programWaysOf } from "../board/strategy/ways.mjs";
import { Pids } from "../memory/pids.mjs";
import { REFUSED, Refused } from "../options/refused.mjs";
import { assumed } from "../options/table.mjs";
import { FIRST_THREADS } from "../processes/first-workers.cjs";
import { begunThread } from "../processes/thread.mjs";
import { Group } from "../run/group.mjs";
import { GRAPH_FLAGS } from "./node/graph-flags.cjs";
import { programMemory, programPlan } from "./program-memory.mjs";

/** @typedef {import("../processes/thread.mjs").Thread} Thread */
/** @typedef {import("../run/outcome.mjs").WantedRun} WantedRun */

const PROGRAM_MODULE = new URL("./program-worker.mjs", import.meta.url);

/**
 * A job's first failing run may cost all of its threads so often: it is made again in fresh threads, and for its lines
 * of code. If more are lost, further ones will be, so others begin in advance.
 */
const FEW_TIMES = 3;

/** What a thread needs that makes modules anew, besides the words of this process. */
const FLAGS = [...process.execArgv, ...GRAPH_FLAGS];

/**
 * After so many runs threads are started anew: what a run leaves is little, but it grows. In a thread that has just
 * begun a run takes twice as long as in one that has made hundreds.
 */
export const MOST_GROUP_RUNS = 2_000;

/** @param {string} program @param {string} why its thread has ended @returns {string} */
function beginProblem(program, why) {
  const refusal = `${REFUSED}: `;
  return why.startsWith(refusal) ? why.slice(refusal.length)
    : `a thread for ${program} ended before it could begin: ${why}`;
}

/** @type {() => { port1: any, port2: any }} */
const channel = () => new MessageChannel();

export class ProgramGroup extends Group {
  /** @type {Record<"first" | "others", Promise<Thread>[]>} threads that have begun, and have no number yet */
  #spare = { first: [], others: [] };

  /** @type {any[]} ports by which each thread gets ports to others */
  #controls = [];

  /** How many threads were ended so that others took their places. */
  #replaced = 0;

  /** @type {Promise<void>} settled when no more are being added */
  #growing = Promise.resolve();

  /** How many runs were asked for. */
  #made = 0;

  /** @type {number | undefined} the seed whose run prints */
  #loud = undefined;

  /** Whether pilots of the program were asked for: they are made before the first run that goes by what they show. */
  #hasPilots = false;

  /** The program that the group was opened with: places in the code are named from its folder. */
  #origin = "";

  /** @param {() => void} meanwhile */
  async start(meanwhile) {
    const referee = this.beginReferee();
    const { module, strategy, everywhere, timeouts, maxMoves, early = assumed("early"), web = false } = this.options;
    this.#origin = module;
    const plan = programPlan(SCRIPT_LIMITS.agents, !web);
    const ways = programWaysOf(strategy, everywhere);
    this.plan = plan;
    this.rules = { agents: plan.agents, starts: 1, early, ways, timeouts, maxMoves };
    this.memory = programMemory(plan, this.options.logEvents);
    this.board = new Board(this.memory.board, this.rules);
    const options = this.refereeOptions({ hasInit: false, hasCheck: false });
    const asked = { ...options, stuck: this.options.stuck, fresh: false };
    referee.give({ memory: this.memory, plan, rules: this.rules, options: asked });
    this.#prepare(1, FIRST_THREADS - 1);
    meanwhile();
    await this.#grow(FIRST_THREADS);
  }

  /**
   * @param {WantedRun[]} seeds
   * @param {Parameters<Group["run"]>[1]} onOutcome
   * @param {Parameters<Group["run"]>[2]} [onFailing]
   */
  run(seeds, onOutcome, onFailing) {
    // Of several jobs, only the one prints that makes the first run of all.
    this.#loud ??= /** @type {{ first?: number }} */ (this.options).first ?? seeds[0]?.seed;
    const all = seeds.map((wanted) => {
      const learns = this.#needsPilots(wanted);
      this.#made += 1;
      // The first run of all is made in fresh threads.
      const isFirst = this.#made === 1 && wanted.seed === this.#loud;
      const isFresh = wanted.isFresh || this.options.fresh || this.#made % MOST_GROUP_RUNS === 0 || (learns && isFirst);
      this.#hasPilots ||= learns;
      // A script alone doesn't make a program's run again: that needs its row.
      return { ...wanted, learns, isFresh, isSilent: !this.#isShown(wanted), wantsRow: true };
    });
    return super.run(all, onOutcome, onFailing);
  }

  /** @param {WantedRun} wanted @returns {boolean} whether it goes by what pilots show, and none were made yet */
  #needsPilots({ seed, row }) {
    const ways = this.rules?.ways ?? [];
    return !this.#hasPilots && row === undefined && !ways[seed % ways.length].everywhere;
  }

  /** @param {WantedRun} wanted @returns {boolean} whether it is shown what the run prints */
  #isShown({ seed, row, wantsRow, isShown, isSilent }) {
    const { programOutput } = this.options;
    if (programOutput === "none" || isSilent) return false;
    // Runs by which a shorter one is looked for aren't shown.
    const isOfSeed = row === undefined && !wantsRow;
    return isShown || (isOfSeed && (programOutput === "all" || seed === this.#loud));
  }

  /**
   * The next runs are of another program, in the same threads. Places in its code are named from the folder of the
   * program that the group was opened with. Its first run prints. No run may be under way.
   * @param {string} module the URL of its main module
   * @param {string[]} [args]
   */
  enter(module, args = []) {
    Object.assign(this.options, { module, args });
    this.#loud = undefined;
    this.#hasPilots = false;
    this.#controls[0].postMessage({ main: { program: module, args } });
  }

  /** @param {number} agent whose thread is ended; another one takes its place */
  async replace(agent) {
    this.#replaced += 1;
    const [next] = await Promise.all([this.#taken(agent), this.agents[agent].stop()]);
    this.threads.delete(this.agents[agent]);
    this.#endChildren(agent);
    await this.#hand(agent, next);
  }

  async close() {
    await super.close();
    for (const agent of this.agents.keys()) this.#endChildren(agent);
  }

  /** Nothing shows how many will be needed. */
  beginAhead() {}

  /** @param {number} agent whose thread has been ended: the child processes that it has left are ended too */
  #endChildren(agent) {
    const { pids = [] } = /** @type {ReturnType<typeof programMemory>} */ (this.memory ?? {});
    for (const pid of pids[agent] === undefined ? [] : new Pids(pids[agent]).take()) {
      try {
        process.kill(pid, "SIGKILL");
      } catch {
        // It has ended by itself.
      }
    }
  }

  /**
   * @param {number} firsts how many threads are to have begun that can be the program's first one
   * @param {number} others how many that can be another one
   */
  #prepare(firsts, others) {
    const { first, others: further } = this.#spare;
    while (first.length < firsts) first.push(this.#begun(true));
    while (further.length < others) further.push(this.#begun(false));
  }

  /** @param {boolean} isFirst whether it can be the program's first thread @returns {Promise<Thread>} */
  #begun(isFirst) {
    const { web = false, wasmAccesses } = this.options;
    const { memory, plan, rules } = this;
    const thread = this.begin(begunThread(PROGRAM_MODULE, FLAGS, isFirst));
    const isRelaxed = wasmAccesses === "relaxed";
    thread.give(PROGRAM_MODULE, { origin: this.#origin, web, isRelaxed, memory, plan, rules });
    return thread.next().then(() => thread);
  }

  /** @param {number} agent @returns {Promise<Thread>} one that can be this agent */
  #taken(agent) {
    const { length } = this.agents;
    if (this.#replaced > FEW_TIMES * length) this.#prepare(1, length - 1);
    this.#prepare(agent === 0 ? 1 : 0, agent === 0 ? 0 : 1);
    return this.inTime(/** @type {Promise<Thread>} */ (this.#spare[agent === 0 ? "first" : "others"].shift()));
  }

  /** @param {number} count how many threads are to have a number */
  async #grow(count) {
    const { length } = this.agents;
    this.#prepare(length === 0 ? 1 : 0, count - Math.max(length, 1));
    for (let agent = length; agent < count; agent += 1) await this.#hand(agent, await this.#taken(agent));
    if (this.board !== undefined) this.board.ready.count = this.agents.length;
  }

  /**
   * Gives a thread its number, and a port to each other one.
   * @param {number} agent
   * @param {Thread} thread
   */
  async #hand(agent, thread) {
    const { port1, port2 } = channel();
    const { module: program, args } = this.options;
    thread.onEnd = (why) => this.board?.turn.die(agent, why);
    /** @type {any} */ (thread.port).postMessage({ agent, control: port2, main: { program, args } }, [port2]);
    const { ended } = await this.inTime(thread.next());
    if (ended !== undefined) throw new Refused(beginProblem(this.options.module, ended));
    this.agents[agent] = thread;
    this.#controls[agent] = port1;
    this.#connect(agent);
    this.board?.turn.arrive(agent);
    void this.#listen(thread);
  }

  /** @param {number} agent that gets a port to each other one, and each of them one to it */
  #connect(agent) {
    for (const [other, control] of this.#controls.entries()) {
      if (other === agent || control === undefined) continue;
      const { port1, port2 } = channel();
      this.#controls[agent]?.postMessage({ peer: other, port: port1 }, [port1]);
      control.postMessage({ peer: agent, port: port2 }, [port2]);
    }
  }

  /** @param {Thread} thread that may ask for more threads */
  async #listen(thread) {
    for (;;) {
      const { message, ended } = await thread.next();
      if (ended !== undefined) return;
      if (message.more !== undefined) this.#growing = this.#growing.then(() => this.#grow(message.more));
    }
  }
}
