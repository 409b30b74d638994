// The memory that the threads of a group share: the agents' buffers, and what the recorder writes down of a run.

import { Choices } from "../memory/choice-list.mjs";
import { CopiedRuns } from "../memory/copied-runs.mjs";
import { Log } from "../memory/log.mjs";
import { Notes } from "../memory/notes.mjs";
import { OperationList } from "../memory/operation-list.mjs";
import { Records } from "../memory/records.mjs";
import { Sources } from "../memory/sources.mjs";
import { Stores } from "../memory/stores.mjs";
import { Board } from "./board.mjs";

/** The worker that calls `init` and `check` makes no calls that are recorded. */
const NO_CALLS = 1;

/**
 * The memory that a group shares.
 * @param {{ agents: number, buffers: number[] }} plan how many agents there are, and the length of each buffer in bytes
 * @param {number} [logEvents] how many events its log has room for
 * @param {boolean} [hasCaller] whether a worker of its own calls `init` and `check`
 * @param {boolean} [isObject] whether the agents use an object, and tell about their operations
 */
export function memoryOf({ agents, buffers }, logEvents, hasCaller = false, isObject = false) {
  return {
    board: Board.memory(),
    log: Log.memory(logEvents),
    stores: Stores.memory(buffers),
    sources: Array.from({ length: agents }, () => Sources.memory()),
    buffers: buffers.map((bytes) => new SharedArrayBuffer(bytes)),
    copies: buffers.map((bytes) => new SharedArrayBuffer(bytes)),
    records: Array.from({ length: agents }, () => Records.memory()),
    choices: Array.from({ length: agents }, () => Choices.memory()),
    runs: CopiedRuns.memory(),
    notes: Array.from({ length: agents }, () => Notes.memory()),
    operations: isObject ? Array.from({ length: agents }, () => OperationList.memory()) : undefined,
    caller: hasCaller ? callerMemory() : undefined,
  };
}

/** What that worker has besides. */
const callerMemory = () =>
  ({ sources: Sources.memory(), records: Records.memory(NO_CALLS), notes: Notes.memory() });
