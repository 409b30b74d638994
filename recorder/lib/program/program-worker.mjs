// One thread of a program. It is ready, with all replaced that shows a program the world, until a run begins or another
// thread starts it. Then it evaluates its module, made anew. It goes on by its event loop until it ends, or until its
// code is broken off.

import buffer from "node:buffer";
import crypto from "node:crypto";
import process from "node:process";
import util from "node:util";
import threads from "node:worker_threads";
import { recordedAtomics } from "../agent/atomics.mjs";
import { described } from "../agent/described.mjs";
import { isCalledByAgents, shownFrames, sourceHere, sourceLater, sourceOfCall } from "../agent/frames.mjs";
import { listingOf } from "../agent/ordinary/patch.mjs";
import { watchRealm } from "../agent/ordinary/watch.mjs";
import { Player } from "../agent/player.mjs";
import { OwnClock } from "../agent/own-clock.mjs";
import { Chance, simulateChance, simulateTime } from "../agent/time.mjs";
import { Board } from "../board/board.mjs";
import { Blocks, MESSAGES } from "../memory/blocks.mjs";
import { ThreadTexts } from "../memory/thread-texts.mjs";
import { RecordedMemory } from "../memory/recorded-memory.mjs";
import { FIRST_MORE } from "../memory/more-blocks.mjs";
import { NamedPlaces } from "../memory/named-places.mjs";
import { Notes } from "../memory/notes.mjs";
import { Pids } from "../memory/pids.mjs";
import { Records } from "../memory/records.mjs";
import { Sources } from "../memory/sources.mjs";
import { TaskNotes } from "../memory/task-notes.mjs";
import { onceMore } from "../processes/garbage.mjs";
import { SourceNames } from "../run/words/source-names.mjs";
import { Awaits } from "./modules/awaits.mjs";
import { Buffers } from "./moves/buffers.mjs";
import { restoreBuiltins } from "./thread/restored-builtins.mjs";
import { Children } from "./real/children.mjs";
import { installGrowing } from "./moves/growing.mjs";
import { UNKNOWN_PLACE, here, hereLater } from "./thread/here.mjs";
import { installCloning, installMemory, installProcess, keepProcess, restoreProcess } from "./thread/install.mjs";
import { countAnew, showFrames } from "./node/internals.mjs";
import { IoPolling } from "./real/io-polling.mjs";
import { Loop } from "./loop/loop.mjs";
import { Locks } from "./locks/locks.mjs";
import { ControlChannels } from "./moves/control-channels.mjs";
import { messageText } from "./ports/message-text.mjs";
import { installMicrotasks } from "./loop/microtasks.mjs";
import { Moves } from "./moves/moves.mjs";
import { NODE } from "./node-surroundings.mjs";
import { PortTable } from "../board/port-table.mjs";
import { forgetError, lastError, printAtOnce } from "./thread/printing.mjs";
import { turnLater } from "./real/real-loop.mjs";
import { RealWork } from "./real/real-work.mjs";
import { installInput } from "./workers/stdio.mjs";
import { refuseRest } from "./node/node-api-policy.mjs";
import { takenStart, threadName } from "./workers/thread-start.mjs";
import { Threads } from "./moves/threads.mjs";
import { Timers } from "./loop/timers.mjs";
import { putAllSyncVersions } from "./sync/all-sync-versions.mjs";
import { leaveOf } from "./thread/unwinding.mjs";
import { WaitAsync } from "./moves/wait-async.mjs";
import { installWebAssembly } from "./wasm/wasm-modules.mjs";
import { WEB } from "./web/surroundings.mjs";

const { Error: EngineError } = globalThis;

/**
 * @typedef {object} ProgramWorkerData what the thread is started with
 * @property {import("node:worker_threads").MessagePort} port
 * @property {string} origin the URL of the module from whose folder places in the code are named
 * @property {boolean} web whether the program is one for browsers
 * @property {boolean} isRelaxed whether plain aligned accesses of WebAssembly are relaxed ones
 * @property {ReturnType<typeof import("./program-memory.mjs").programMemory>} memory
 * @property {import("../options/plan.mjs").Plan} plan
 * @property {import("../board/strategy.mjs").Rules} rules
 */

/** @typedef {import("./workers/thread-start.mjs").ThreadStart} ThreadStart */
/** @typedef {import("./thread/thread-services.mjs").ThreadServices} ThreadServices */

const { port, origin, web, isRelaxed, memory: shared, plan, rules } =
  /** @type {ProgramWorkerData} */ (threads.workerData);
const surroundings = web ? WEB : NODE;
const chance = new Chance();
const awaits = new Awaits();
const placeNames = new SourceNames(origin);

/**
 * What the thread is; nothing before it knows which one.
 * @type {Partial<{ player: Player, buffers: Buffers, moves: Moves, start: ThreadStart }>}
 */
const self = { player: undefined, buffers: undefined, moves: undefined, start: undefined };

const isPlaying = () => self.player !== undefined && self.player.isPlaying;

/** @returns {Player} */
function playing() {
  if (self.player === undefined) throw new EngineError("the thread has no part in a run yet");
  return self.player;
}

/** @param {string} why @param {string} [place] of the program's code @returns {never} */
function refuse(why, place = sourceHere() ?? UNKNOWN_PLACE) {
  return playing().refuse(`${why}, at ${place}`);
}

/** @param {unknown} buffer */
const numberOf = (buffer) => self.buffers?.numberOf(buffer) ?? -1;

/** @param {unknown} buffer @returns {number} its block, or -1 */
function blockOf(buffer) {
  const number = numberOf(buffer);
  return number < 0 || self.buffers === undefined ? -1 : self.buffers.blockOf(number);
}

/** @type {import("../agent/ordinary/context.mjs").Watching} */
const watching = {
  blockOf: numberOf,
  seen: (place, from, to, writes) => {
    const { player, buffers } = self;
    if (player === undefined || buffers === undefined || !player.isPlaying) return;
    const block = buffers.blockOf(place.block);
    // No other thread can reach what is no block yet.
    if (block < 0) return;
    place.block = block;
    player.seen(place, from, to, writes);
  },
  lengthAsked: ({ block }) => {
    const number = self.buffers?.blockOf(block) ?? -1;
    if (number >= 0 && isPlaying()) self.moves?.touchLength(number, isPlaying);
  },
  isCalledByAgents,
  // There is no other way to watch a program.
  refuse: (why) =>
    refuse(`did something that the recorder can't record: ${why.replace(": --ordinary store lets it pass", "")}`),
};

/** Memory that no other thread can reach concerns no other thread: a program sleeps by a wait there. */
const onlyOwnMemory = {
  isAllowed: false, lasting: [], isUsed: () => false, isProgramMemory: Buffers.isShared, use: () => false,
  wait: () => {},
};

/** @param {Moves} moves @param {WaitAsync} waits @returns {typeof Atomics} */
const atomicsOf = (moves, waits) => recordedAtomics(surroundings.atomics(moves.agent), {
  blockOf,
  isRecording: isPlaying,
  make: (call, view, called) => {
    moves.count();
    return playing().make(call, view, called);
  },
  simulatesTime: true,
  sleep: (milliseconds) => moves.sleep(milliseconds),
  refuse: (why) => refuse(`made a call that the recorder can't record: ${why}`),
  unseen: /** @type {any} */ (onlyOwnMemory),
  endUnseen: () => /** @type {never} */ (moves.sleep(Infinity)),
  notify: (given) => waits.notify(given),
});

/** What the recorder notes of agents that are synchronous. */
const NOTHING_LATER = /** @type {any} */ ({
  begin: () => {}, end: () => {}, ongoing: () => undefined, noteLeft: () => {}, write: () => {},
});

/** @param {number} agent @returns {{ player: Player, blocks: Blocks }} */
function playerOf(agent) {
  const board = new Board(shared.board, rules);
  const memory = new RecordedMemory(shared.buffers, shared.copies);
  const player = new Player(agent, {
    board,
    memory,
    log: board.logIn(shared.log),
    stores: board.storesIn(shared.stores, memory),
    records: new Records(shared.records[agent]),
    sources: new Sources(shared.sources[agent]),
    later: NOTHING_LATER,
    messages: NOTHING_LATER,
    unseen: NOTHING_LATER,
    chance,
    ownClock: new OwnClock(false),
    lengths: plan.buffers,
    canBlock: plan.canBlock[agent],
    ordinary: "watch",
    mayLackScript: true,
  });
  return { player, blocks: new Blocks(shared.blocks, shared.copies, memory, plan.buffers) };
}

/** @returns {Promise<any>} the next message, which mustn't have come yet */
const nextMessage = () => new Promise((done) => port.once("message", done));

/**
 * What the thread has of a run.
 * @param {Player} player
 * @param {Blocks} blocks
 * @param {ControlChannels} control
 * @returns {ThreadServices}
 */
function partsOf(player, blocks, control) {
  const { agent, context: { board, log } } = player;
  const moves = new Moves(player, shared.buffers[MESSAGES]);
  const began = (/** @type {number} */ block) => blocks.begins(block, agent, log.length);
  /** @type {import("./moves/buffers.mjs").BufferCallbacks["named"]} */
  const named = (block, place, count) => nameBlock(player, block, place, count);
  const buffers = new Buffers(blocks, control, { seen: watching.seen, refuse, named, began });
  const table = new PortTable(shared.ports);
  const all = new Threads(agent, board, table, moves);
  /** @type {import("./thread/unwinding.mjs").DeferredServices} */
  const late = {};
  const later = /** @type {ThreadServices["later"]} */ ((name, act, place, order) =>
    late.loop?.later(name, act, place, order));
  const notes = new TaskNotes(shared.tasks);
  /** @type {import("./workers/ends.mjs").Leaving["note"]} */
  const note = (text, place) => late.loop?.note(text, place);
  const noted = notingOf(board, notes);
  const around = { here, hereLater, refuse, later, note, noted, late };
  const ports = new surroundings.Ports({ agent, table, moves, buffers, control, ...around });
  const isShown = () => !board.mode.isSilent && isPlaying();
  const spawned = new Children(new Pids(shared.pids[agent]), isShown);
  const real = new RealWork(new Notes(shared.notes[agent]), spawned, here);
  const leave = leaveOf(player, late);
  const threadTexts = new ThreadTexts(shared.threadTexts[agent]);
  const about = { threadTexts, note, printed: lastError, closeSockets: () => real.close() };
  const ends = new surroundings.Ends({ agent, player, ports, threads: all, here, leave, ...about });
  const timers = new Timers({ now: () => board.clock.now(), here: sourceLater });
  const children = new Set();
  const locks = new Locks({ ports, moves, control, threads: all, later, refuse, isAtOnce: surroundings.hasPhases });
  const waits = new WaitAsync({ moves, buffers, isPlaying, refuse });
  const loop = new Loop({
    moves, ports, timers, waits, locks, ends, threadTexts, children, refuse, leave, notes, here: sourceHere,
    becomeIdle: () => late.becomeIdle?.(), hasPhases: surroundings.hasPhases, looking: new IoPolling(),
  });
  Object.assign(late, { loop, ends });
  return {
    moves, waits, locks, buffers, ports, ends, timers, loop, children, threads: all, control, later, late,
    threadTexts, here, refuse, real, spawned, isShown,
  };
}

/** @param {ThreadServices} parts */
function installReplacements({ moves, buffers, waits, ends, ports, later, late, spawned, isShown }) {
  const listAgain = listingOf([globalThis, buffer, crypto, process, util]);
  printAtOnce(isShown, printedName, () => moves.board.vain?.news());
  simulateTime(() => (isPlaying() ? playing().look() : 0));
  simulateChance(chance);
  // Node makes a context of its own when a reader is released first. That context isn't the program's, so it is made
  // before.
  new (/** @type {any} */ (globalThis).ReadableStream)().getReader().releaseLock();
  const atomics = atomicsOf(moves, waits);
  showFrames(shownFrames);
  late.wasm = installWebAssembly({
    buffers, moves, atomics, seen: watching.seen, here: sourceOfCall, refuse, isPlaying, isRelaxed,
  });
  watchRealm(watching);
  putAllSyncVersions({ later, isPlaying, here: sourceOfCall });
  installMemory((buffer) => buffers.made(buffer, sourceOfCall()));
  installCloning(ports);
  installGrowing(buffers, moves, isPlaying);
  globalThis.Atomics = atomics;
  waits.install(Atomics);
  installMicrotasks(isPlaying);
  surroundings.serve(ports);
  installInput(refuse);
  spawned.install();
  installProcess((given) => ends.exit(given), moves.agent);
  ends.guard();
  listAgain();
  keepProcess();
}

/** @param {Board} board @param {TaskNotes} notes @returns {import("./ports/ports.mjs").PortContext["noted"]} */
const notingOf = (board, notes) => (number, kind, value) => {
  if (board.mode.notesLines) notes.noteMessage(number, messageText(kind, value));
};

/**
 * A block gets the names by which people and pilots know it.
 * @param {Player} player
 * @param {number} block
 * @param {string} place where its memory was made
 * @param {number} count how many were made there before
 */
function nameBlock({ agent, context: { board, lengths } }, block, place, count) {
  if (block < FIRST_MORE) new ThreadTexts(shared.madeAt[block]).setName(place);
  if (place === "" || !(board.places instanceof NamedPlaces)) return;
  board.places.name(block, `${agent} ${place} ${count}`, lengths[block], board.mode.isPilot);
}

/** @returns {string} the thread, before what it prints */
function printedName() {
  const { start } = self;
  if (start === undefined || start.where === "") return "main";
  return `${threadName(start)} started at ${placeNames.nameOf(start.where)}`;
}

/**
 * Begins the thread's part in a run.
 * @param {ThreadServices} parts
 * @param {import("./thread/thread-services.mjs").ProgramGraph} graph
 */
function begin(parts, graph) {
  const { moves: { agent, board }, control, ends, threadTexts, loop } = parts;
  const { start, parentPort } = agent === 0
    ? { start: surroundings.mainStart(control.main), parentPort: null } : takenStart(parts);
  self.start = start;
  forgetError();
  if (board.mode.notesLines) awaits.begin(threadTexts);
  threadTexts.setName(start.where === "" ? "" : `${threadName(start)}, started at ${start.where}`);
  if (agent !== 0) ends.parentPort = parentPort;
  surroundings.begin(parts, start, parentPort);
  graph.begin();
  countAnew();
  loop.begin(() => {
    surroundings.evaluated(start, graph, parts).then(() => ends.evaluated(), (thrown) => {
      ends.evaluated();
      ends.uncaught(thrown);
    });
  });
}

/**
 * Leaves nothing of a run in the thread, except for what its code has changed in the realm.
 * @param {ThreadServices} parts
 */
function clear(parts) {
  restoreBuiltins();
  awaits.stop();
  const { buffers, waits, locks, ports, timers, loop, ends, children, late } = parts;
  buffers.clear();
  late.wasm?.clear();
  waits.clear();
  locks.clear();
  ports.clear();
  timers.clear();
  loop.clear();
  ends.clear();
  children.clear();
  surroundings.clear(parts);
  restoreProcess();
}

/**
 * Awaits the thread's next part in a run, and begins it. It is called by the real loop.
 * @param {ThreadServices} parts
 * @param {import("./thread/thread-services.mjs").ProgramGraph} graph
 */
function serve(parts, graph) {
  const { agent, player, board } = parts.moves;
  onceMore();
  player.awaitOrder();
  if (agent !== 0) board.turn.sleep(agent);
  // Another thread may have ended it meanwhile.
  if (board.end.isOver() || (agent !== 0 && !parts.threads.isAlive(agent))) {
    board.turn.becomeIdle(agent);
    turnLater(() => serve(parts, graph));
    return;
  }
  player.begin();
  try {
    begin(parts, graph);
  } catch (thrown) {
    board.end.end("failed", `the recorder can't begin thread ${agent}: ${described(thrown)}`);
    board.turn.parkForever(agent);
  }
}

/** The thread's part in the runs of its group. */
export async function main() {
  const numbered = nextMessage();
  const graph = new surroundings.Graph({
    refuse: (/** @type {string} */ what, /** @type {string | undefined} */ place) =>
      refuse(`used ${what}, which isn't simulated`, place),
  });
  port.postMessage({ begun: true });
  const { agent, ...given } = await numbered;
  chance.agent = agent;
  chance.begin(0);
  const { player, blocks } = playerOf(agent);
  const { board } = player.context;
  const parts = partsOf(player, blocks, new ControlChannels(given, port, board));
  self.player = player;
  self.buffers = parts.buffers;
  self.moves = parts.moves;
  installReplacements(parts);
  refuseRest({
    refuse: (/** @type {string} */ name) => refuse(`called ${name}, which isn't simulated`), isPlaying,
    used: (/** @type {string} */ name) => parts.real.note(name),
  });
  surroundings.install(parts, graph);
  const home = () => {
    clear(parts);
    board.turn.becomeIdle(agent);
    turnLater(() => serve(parts, graph));
  };
  parts.late.becomeIdle = () => parts.real.leave(home, () => board.turn.parkForever(agent));
  port.postMessage({ ready: true });
  serve(parts, graph);
}
