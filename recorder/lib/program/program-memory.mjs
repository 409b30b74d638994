// The memory that the threads of a program share, besides the program's own.

import { SCRIPT_LIMITS } from "../../script/limits.mjs";
import { AsyncWaiters } from "../board/async-waiters.mjs";
import { memoryOf } from "../board/group-memory.mjs";
import { MAKE, MOVES } from "../board/journal.mjs";
import { Blocks, MESSAGES, MESSAGE_BYTES, MOST_BLOCKS, MOST_BYTES, messageBytes } from "../memory/blocks.mjs";
import { ThreadTexts } from "../memory/thread-texts.mjs";
import { NamedPlaces } from "../memory/named-places.mjs";
import { Pids } from "../memory/pids.mjs";
import { Records } from "../memory/records.mjs";
import { TaskNotes } from "../memory/task-notes.mjs";
import { PortTable } from "../board/port-table.mjs";

/** How many calls a thread can make: more than a script can have, and no more than a run has moves for. */
const MOST_CALLS = Math.ceil(SCRIPT_LIMITS.moves / MOVES[MAKE]) + 1;

/** How long each block can be; the last one is for messages, and as long as it is if there are few. */
const longest = () => [...Array.from({ length: MOST_BLOCKS }, () => MOST_BYTES), messageBytes(0)];

/** @param {SharedArrayBuffer[]} buffers @returns {SharedArrayBuffer[]} the same, with room for all messages */
const withMessages = (buffers) =>
  buffers.map((buffer, block) => (block === MESSAGES ? new SharedArrayBuffer(MESSAGE_BYTES) : buffer));

/**
 * @param {number} agents how many threads there can be
 * @param {boolean} canBlock whether the first one can block
 * @returns {import("../options/plan.mjs").Plan}
 */
export const programPlan = (agents, canBlock) => ({
  agents, buffers: longest(), canBlock: Array.from({ length: agents }, (_, agent) => agent > 0 || canBlock), names: [],
});

/**
 * @param {import("../options/plan.mjs").Plan} plan
 * @param {number} [logEvents] how many events its log has room for
 */
export function programMemory(plan, logEvents) {
  const memory = memoryOf(plan, logEvents);
  return {
    ...memory,
    choices: [],
    buffers: withMessages(memory.buffers),
    copies: withMessages(memory.copies),
    board: { ...memory.board, waiters: AsyncWaiters.memory(), names: NamedPlaces.names() },
    records: Array.from({ length: plan.agents }, () => Records.memory(MOST_CALLS)),
    blocks: Blocks.memory(),
    ports: PortTable.memory(),
    tasks: TaskNotes.memory(),
    pids: Array.from({ length: plan.agents }, () => Pids.memory()),
    threadTexts: Array.from({ length: plan.agents }, () => ThreadTexts.memory()),
    madeAt: Array.from({ length: MOST_BLOCKS }, () => ThreadTexts.memory()),
  };
}
