// What the referee of a program's runs knows besides the board: the blocks that were made, the threads that joined, and
// what keeps idle threads alive.

import { PortTable } from "../board/port-table.mjs";
import { Blocks, FEW_MESSAGES, MESSAGES, MESSAGE_PLACES, MOST_BLOCKS, MOST_BYTES } from "../memory/blocks.mjs";
import { ThreadTexts } from "../memory/thread-texts.mjs";
import { TaskNotes } from "../memory/task-notes.mjs";
import { thrownIn } from "./ending/failure.mjs";
import { moreBytesOf } from "./ending/final-state.mjs";
import { inWindows, windowsOf } from "./windows/in-windows.mjs";
import { blockNames } from "./words/program-names.mjs";
import { PAGE_BYTES, Windows } from "./windows/windows.mjs";
import { digits } from "./words/summary-words.mjs";

const CUT = "a thread was terminated while it waited, which no script can have: sabsim judges only the trace of such a "
  + "run";

const CUT_ASYNC = "a notify came where a thread that has ended had waited by Atomics.waitAsync, which no script can "
  + "have: sabsim judges only the trace of such a run";

/** Why a run has neither a script nor a trace. */
const MORE_MEMORY = `its threads share more than ${MOST_BLOCKS} buffers, one of more than ${MOST_BYTES} bytes, or one `
  + `that grows, and touch more pages of ${PAGE_BYTES} bytes than a script and a trace have room for: the `
  + "recorder alone judges such a run";

/** The last of the first places are those by which threads hand over waits in a script. */
const CROWDED_ASYNC = `it has more than ${digits(FEW_MESSAGES)} messages beside waits of Atomics.waitAsync: `
  + "sabsim judges only the trace of such a run";

/** Two messages then have one place, as if the later one was sent after the earlier one was received. */
const CROWDED = `it has more than ${digits(MESSAGE_PLACES)} messages, the most that can be told apart: `
  + "unordered accesses may be missed";

const LOST = "so many ordinary writes were made to its buffers, or one had so many bytes at first, that a script "
  + "doesn't have them: sabsim judges only the trace of such a run";

/** @typedef {import("./windows/in-windows.mjs").Written} Written */

/**
 * @typedef {object} ProgramMemory
 * @property {ReturnType<typeof Blocks.memory>} blocks
 * @property {SharedArrayBuffer[]} copies
 * @property {SharedArrayBuffer} ports
 * @property {SharedArrayBuffer} tasks
 * @property {SharedArrayBuffer[]} threadTexts
 * @property {SharedArrayBuffer[]} madeAt where the memory of each block was made
 */

export class ProgramState {
  /**
   * @param {ProgramMemory} shared
   * @param {import("../board/board.mjs").Board} board
   * @param {import("../memory/recorded-memory.mjs").RecordedMemory} memory
   * @param {import("../options/plan.mjs").Plan} plan which is kept as the runs have it
   */
  constructor(shared, board, memory, plan) {
    this.board = board;
    this.plan = plan;
    this.blocks = new Blocks(shared.blocks, shared.copies, memory, plan.buffers);
    this.threadTexts = shared.threadTexts.map((each) => new ThreadTexts(each));
    this.madeAt = shared.madeAt.map((each) => new ThreadTexts(each));
    this.ports = new PortTable(shared.ports);
    this.tasks = new TaskNotes(shared.tasks);
    /** What pilots know of its memory. */
    this.places = /** @type {import("../memory/named-places.mjs").NamedPlaces} */ (board.places);
  }

  /** A run begins. */
  begin() {
    this.blocks.begin();
    for (const texts of [...this.threadTexts, ...this.madeAt]) texts.clear();
    this.ports.begin();
    this.tasks.begin();
    this.places.begin();
  }

  /** Nothing is known about its memory. */
  forget() {
    this.places.forget();
  }

  /** A run has ended: its plan is known. @returns {number[]} the threads that took part */
  learn() {
    const { plan, board, blocks } = this;
    blocks.refresh(board.journal.messages);
    plan.agents = board.joined;
    plan.canBlock.length = plan.agents;
    // The first one of a program for browsers can't.
    plan.canBlock.fill(true, 1);
    return this.threads;
  }

  /**
   * A run as its script and its trace have it: in windows, if its memory is more than these can have.
   * @param {Written} made whose blocks are the program's
   * @param {(text: string) => string} withNames names the places in a text
   * @param {import("./windows/windows.mjs").Window[]} [list] windows that are known already
   * @returns {Written | undefined} undefined: there is no room for all that it touches
   */
  inWindows(made, withNames, list) {
    if (!this.blocks.haveMore) return made;
    const windows = list === undefined ? windowsOf(made.run) : new Windows(list);
    return windows && inWindows(windows, made, this.blocks, this.names(withNames).blocks);
  }

  /** @returns {string | undefined} why unordered accesses of the run may be missed, if so */
  get whyMissed() {
    return this.board.journal.messages > MESSAGE_PLACES ? CROWDED : undefined;
  }

  /** @param {Written | undefined} written @returns {string | undefined} why the run can't have a script, if so */
  whyNoScript(written) {
    if (written === undefined) return MORE_MEMORY;
    if (this.ports.isCut()) return CUT;
    if (this.board.journal.messages > FEW_MESSAGES && (this.board.waiters?.joined ?? 0) > 0) return CROWDED_ASYNC;
    if (this.board.waiters?.hasMissed) return CUT_ASYNC;
    return written.windows !== undefined && written.stores.isLost() ? LOST : undefined;
  }

  /** @returns {import("./ending/final-state.mjs").MoreBytes | undefined} of the blocks that no script can have */
  moreBytes() {
    const { more } = this.blocks;
    return more.count === 0 ? undefined : moreBytesOf(more.numbers().map((block) => more.known(block)));
  }

  /** @returns {number[]} all threads that there are, also those that took no part */
  get all() {
    return Array.from({ length: this.board.ready.count }, (_, agent) => agent);
  }

  /** @returns {number[]} the threads that took part */
  get threads() {
    return Array.from({ length: this.plan.agents }, (_, agent) => agent);
  }

  /** @param {string[]} bytes of each block @returns {string[]} of those that the program has made */
  own(bytes) {
    return bytes.slice(0, this.blocks.count);
  }

  /**
   * Which threads have ended by an error or an exit code, and what keeps those alive that have nothing to do.
   * @param {string} ending of the run
   * @param {import("./words/source-names.mjs").SourceNames} sourceNames
   * @returns {string[]} a line each
   */
  standstill(ending, sourceNames) {
    if (ending !== "stuck" && ending !== "deadlock") return [];
    const { board, threadTexts, threads } = this;
    const ended = threads.filter((agent) => threadTexts[agent].end() !== "").map((agent) => {
      const { message, sources } = thrownIn(threadTexts[agent].end(), sourceNames);
      const where = sources.length === 0 ? "" : `, at ${sources[0]}`;
      return `agent ${agent} ended: ${sourceNames.withNames(message[0])}${where}`;
    });
    const idle = threads.filter((agent) => board.line.isIdle(agent)).map((agent) => sourceNames.withNames(
      `agent ${agent} has nothing to do, and is kept alive by ${threadTexts[agent].read()}`));
    return [...ended, ...idle];
  }

  /**
   * @param {string} detail
   * @param {boolean} _isFound
   * @param {import("./words/source-names.mjs").SourceNames} names
   * @returns {string} with the place of an await that never settles, if it is about that
   */
  named(detail, _isFound, names) {
    const place = this.threadTexts[0].awaited();
    const isAwait = place !== "" && /has a top-level await that never settles$/.test(detail);
    return names.withNames(isAwait ? `${detail}, at ${place}` : detail);
  }

  /**
   * @param {(text: string) => string} withNames names the places in a text
   * @returns {import("./words/program-names.mjs").ProgramNames} what the threads and the blocks of the run are called
   */
  names(withNames) {
    const { more, count } = this.blocks;
    const own = this.madeAt.slice(0, count).map((each) => withNames(each.name()));
    const places = more.count === 0 ? own : [...own, ...Array.from({ length: MESSAGES + 1 - count }, () => "")];
    const blocks = blockNames([...places, ...more.numbers().map((block) => withNames(more.place(block)))]);
    return { threads: this.threads.map((agent) => withNames(this.threadTexts[agent].name())), blocks };
  }
}
