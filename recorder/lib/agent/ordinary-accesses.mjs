// An agent's ordinary reads and writes between its calls. They are noted in the log as they are made. What the writes
// have changed is taken as stores before the agent's next call.

import { SIZES } from "../../script/kinds.mjs";
import { FLAG, NO_CALL, READ, WRITE } from "../memory/log.mjs";
import { FIRST_MORE } from "../memory/more-blocks.mjs";
import { numberHere } from "./frames.mjs";
import { REPEATED, RepeatedAccesses } from "./repeated-accesses.mjs";

// If sources are noted, each access is; but of one that is repeated no more than so many in a row.
const MOST_REPEATS = 100;

// No block that a script can't have as it is has a greater number.
const LAST_MORE = 2 ** 30;

/** @typedef {import("./ordinary/context.mjs").WatchedPlace} WatchedPlace */

/** What becomes of an access: it is noted, it is repeated without end, or the log has no room for it. */
export const NOTED = Object.freeze({ YES: 0, SPINS: 1, FULL: 2 });

export class OrdinaryAccesses {
  /** @param {number} agent its number @param {import("./agent-context.mjs").AgentContext} context */
  constructor(agent, context) {
    this.agent = agent;
    this.context = context;
    this.repeats = new RepeatedAccesses(context.lengths);
    /** How many there were in this run. */
    this.count = 0;
    /** The first event of the log that this agent has appended since its last call. */
    this.since = 0;
  }

  /** A run begins. */
  begin() {
    this.count = 0;
    this.since = this.context.log.length;
    this.repeats.begin();
  }

  /** The agent asks for a call: others may move before it goes on. */
  renew() {
    this.repeats.renew();
  }

  /** The agent's call was made. */
  goOn() {
    this.since = this.context.log.length;
  }

  /**
   * Notes an access that is about to be made.
   * @param {WatchedPlace} place
   * @param {number} from its first byte in the block
   * @param {number} to the byte behind its last one
   * @param {boolean} writes
   * @param {number} made how many calls the agent has made
   * @returns {number} one of `NOTED`
   */
  note(place, from, to, writes, made) {
    const { board, log, memory } = this.context;
    this.count += 1;
    const { notesLines } = board.mode;
    const notesLine = notesLines && this.#notesLine(place.block, from, to);
    const repeats = this.repeats.note(place, from, to, writes);
    const isNew = repeats === REPEATED.NEW;
    if (!isNew) {
      if (repeats === REPEATED.SPINS) return NOTED.SPINS;
      if (!notesLine || this.repeats.again > MOST_REPEATS) return NOTED.YES;
    }
    const what = writes ? WRITE : READ;
    if (!notesLine && log.extend(what, this.agent, place.block, from, to, place, this.since)) {
      this.repeats.add(place, from, to, writes);
      return NOTED.YES;
    }
    if (!log.hasRoom()) return notesLines && !(writes && isNew) ? NOTED.YES : NOTED.FULL;
    const source = notesLine ? numberHere(this.context.sources) : 0;
    const flags = (writes ? FLAG.WRITES : FLAG.READS) | (isNew ? 0 : FLAG.AGAIN);
    log.append(what, this.agent, NO_CALL, flags, made, place.block, from, to, place, source);
    // Nobody else moves until it is read.
    if (notesLine && !writes && isElement(place, from, to)) log.addValue(memory.real[place.block], from, to);
    this.repeats.add(place, from, to, writes);
    return NOTED.YES;
  }

  /**
   * @param {number} block
   * @param {number} from
   * @param {number} to
   * @returns {boolean} whether an access there notes its line
   */
  #notesLine(block, from, to) {
    const { noted, mode } = this.context.board;
    return mode.takesLine() || noted.has(block, from, to);
  }

  /**
   * Takes what ordinary writes have changed since the agent's last call.
   * @returns {import("../memory/recorded-memory.mjs").ByteChange | undefined} a change that nothing stands for
   */
  take() {
    const { board, memory, ordinary, stores, log } = this.context;
    const { length } = memory.real;
    let isChanged = length > FIRST_MORE;
    for (let block = 0; block < length && block < FIRST_MORE; block += 1) {
      if (!memory.hasChanged(block)) continue;
      isChanged = true;
      board.spins.news();
      board.vain?.news();
      if (ordinary === "watch") this.#takeSeen(block, block);
      if (ordinary === "store") stores.takeChanged(this.agent, log.length, block);
    }
    if (length > FIRST_MORE) this.#takeSeen(FIRST_MORE, LAST_MORE);
    return isChanged ? memory.changed() : undefined;
  }

  /**
   * Takes what the writes that were seen have changed in some blocks. Those whose bytes follow each other are taken
   * together, whether the log has joined them or not: a script doesn't depend on that.
   * @param {number} first block
   * @param {number} last block
   */
  #takeSeen(first, last) {
    const { log } = this.context;
    const { length } = log;
    let block = first;
    let kind = -1;
    let from = 0;
    let to = 0;
    for (let event = this.since; event < length; event += 1) {
      const next = log.blockAt(event);
      if (next < first || next > last || log.whatAt(event) !== WRITE) continue;
      if ((log.flagsAt(event) & FLAG.AGAIN) !== 0) continue;
      if (next !== block || log.kindAt(event) !== kind || log.fromAt(event) !== to) {
        this.#takeStretch(block, from, to, kind);
        block = next;
        kind = log.kindAt(event);
        from = log.fromAt(event);
      }
      to = log.toAt(event);
    }
    this.#takeStretch(block, from, to, kind);
  }

  /** @param {number} block @param {number} from @param {number} to @param {number} kind */
  #takeStretch(block, from, to, kind) {
    const { board, log, stores } = this.context;
    if (from >= to) return;
    if (block < FIRST_MORE) stores.recordWrites(this.agent, log.length, block, from, to, kind);
    else if (stores.takeWrittenInMore(this.agent, log.length, block, from, to, kind)) {
      board.spins.news();
      board.vain?.news();
    }
  }
}

/** @param {WatchedPlace} place @param {number} from @param {number} to @returns {boolean} whether it is one element */
const isElement = ({ kind }, from, to) => SIZES[kind] === to - from;
