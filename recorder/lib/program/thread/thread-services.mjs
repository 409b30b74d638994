// What a program's thread has of a run, and what its code finds there besides the language: only types.

/**
 * @typedef {object} ThreadServices what a thread has of a run
 * @property {import("../moves/moves.mjs").Moves} moves
 * @property {import("../moves/wait-async.mjs").WaitAsync} waits
 * @property {import("../moves/buffers.mjs").Buffers} buffers
 * @property {import("../moves/control-channels.mjs").ControlChannels} control
 * @property {import("../moves/threads.mjs").Threads} threads those of the run
 * @property {import("../ports/ports.mjs").Ports} ports
 * @property {import("../locks/locks.mjs").Locks} locks
 * @property {import("../workers/ends.mjs").Ends} ends
 * @property {Set<import("../workers/workers.mjs").Child>} children workers that this thread has started
 * @property {import("../loop/timers.mjs").Timers} timers
 * @property {import("../loop/loop.mjs").Loop} loop
 * @property {import("../real/real-work.mjs").RealWork} real
 * @property {import("../real/children.mjs").Children} spawned its child processes
 * @property {import("../../memory/thread-texts.mjs").ThreadTexts} threadTexts
 * @property {import("../sync/sync-calls.mjs").SyncVersionContext["later"]} later does something as a task of its own
 * @property {import("./unwinding.mjs").DeferredServices} late what is made after its ports
 * @property {() => string} here where the program's code is
 * @property {(why: string, place?: string) => never} refuse ends the run
 * @property {() => boolean} isShown whether what the program prints is shown
 */

/** @typedef {{ begin(): void }} ProgramGraph a thread's modules; it forgets them for the next run */

/**
 * @typedef {object} Surroundings what the code of a program's thread finds besides the language
 * @property {new (given: { refuse: (what: string, place?: string) => void }) => ProgramGraph} Graph makes the modules
 * @property {boolean} hasPhases whether the event loop has the phases of node's
 * @property {typeof import("../workers/ends.mjs").Ends} Ends
 * @property {typeof import("../ports/ports.mjs").Ports} Ports
 * @property {(agent: number) => typeof Atomics} atomics the engine's own functions, for a thread
 * @property {(ports: any) => void} serve puts methods in the place of those that the engine's ports have
 * @property {(parts: any, graph: any) => void} install is called once in a thread, when all else is replaced
 * @property {(main: import("../moves/control-channels.mjs").MainChannels) => any} mainStart what the first thread is to
 * run
 * @property {(parts: any, start: any, parentPort: any) => void} begin is called for each run
 * @property {(start: any, graph: any, parts: any) => Promise<unknown>} evaluated evaluates the thread's module
 * @property {(parts: any) => void} clear leaves nothing of a run
 */

export {};
