/**
 * What the objects of an agent share: its board, memory, log, and how it may use them.
 * @typedef {object} AgentContext
 * @property {import("../board/board.mjs").Board} board
 * @property {import("../memory/recorded-memory.mjs").RecordedMemory} memory
 * @property {import("../memory/log.mjs").Log} log
 * @property {import("../memory/stores.mjs").Stores} stores
 * @property {import("../memory/records.mjs").Records} records of its own calls
 * @property {import("../memory/sources.mjs").Sources} sources of its own code
 * @property {import("./pending-work.mjs").PendingWork} later
 * @property {import("./messages.mjs").Messages} messages
 * @property {import("./unseen.mjs").Unseen} unseen
 * @property {import("./time.mjs").Chance} chance
 * @property {import("./own-clock.mjs").OwnClock} ownClock
 * @property {number[]} lengths of the buffers
 * @property {boolean} canBlock
 * @property {"watch" | "store" | "refuse"} ordinary
 * @property {boolean} [mayLackScript] whether its run may have more calls, views and text than a script can have
 * @property {() => never} [leave] breaks off the code of a program's thread when its part in a run is over
 */

export {};
