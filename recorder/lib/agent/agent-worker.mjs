// The worker of one agent. It replaces what shows an agent the world: Atomics, typed arrays, clocks, random numbers. It
// imports the agents' module, and then carries out orders, one after the other: the agent's part in a run, or the
// module's `init` or `check`. A module that has these gets one worker more, which only calls them: so what they keep in
// the module's variables isn't the agents'. A worker never gets back to its event loop.
//
// All of this runs beside the agents' code, which may change what it finds. So it uses functions that it has kept from
// before that code is loaded, and loops in place of the methods of arrays.

import fs from "node:fs";
import { syncBuiltinESMExports } from "node:module";
import { Writable } from "node:stream";
import threads from "node:worker_threads";
import { Board } from "../board/board.mjs";
import { Choices } from "../memory/choice-list.mjs";
import { ORDER } from "../memory/layout.mjs";
import { OperationList } from "../memory/operation-list.mjs";
import { RecordedMemory } from "../memory/recorded-memory.mjs";
import { Notes } from "../memory/notes.mjs";
import { Records } from "../memory/records.mjs";
import { Sources } from "../memory/sources.mjs";
import { put } from "../primordials.mjs";
import { onceMore } from "../processes/garbage.mjs";
import { recordedAtomics } from "./atomics.mjs";
import { Chooser } from "./chooser.mjs";
import { NO_CHOICE, choicesBy } from "./choosing.mjs";
import { ChosenChance } from "./chosen-chance.mjs";
import { shareWithContexts } from "./contexts.mjs";
import { described } from "./described.mjs";
import { isCalledByAgents, sourceHere } from "./frames.mjs";
import { loadedModule } from "./loaded-module.mjs";
import { PendingWork } from "./pending-work.mjs";
import { Messages } from "./messages.mjs";
import { blockNumber } from "./ordinary/context.mjs";
import { showEngineTexts } from "./ordinary/patch.mjs";
import { watchOrdinary, watchWaysOut } from "./ordinary/watch.mjs";
import { isWatchable, watchMaking } from "./other-memory.mjs";
import { OwnClock } from "./own-clock.mjs";
import { Player } from "./player.mjs";
import { recordedOperations } from "./recorded-operations.mjs";
import { Chance, simulateChance, simulateTime } from "./time.mjs";
import { Unseen } from "./unseen.mjs";

const { Error: EngineError } = globalThis;

// A worker's own streams are written by its event loop, which never runs again. What agents print goes to
// standard error at once: standard output is the recorder's.
function printAtOnce() {
  /** @param {string | Uint8Array} chunk */
  const printed = (chunk) => {
    if (self.player?.isSilent() === true) return true;
    try {
      fs.writeSync(2, chunk);
    } catch {
      // Nobody reads it, or not fast enough: what an agent prints isn't worth its end.
    }
    return true;
  };
  for (const name of /** @type {const} */ (["stdout", "stderr"])) {
    const stream = new Writable({ write: (chunk, _encoding, done) => done(printed(chunk) ? null : undefined) });
    // The stream's own way of writing goes on later, for a callback.
    put(stream, "write", printed);
    /** @type {any} node's messages for it may still come, and are taken by a method that a symbol names */
    const former = process[name];
    for (const symbol of Object.getOwnPropertySymbols(Object.getPrototypeOf(former))) {
      put(stream, symbol, former[symbol].bind(former));
    }
    Object.defineProperty(process, name, { value: stream, configurable: true });
  }
}

/**
 * @typedef {object} AgentWorkerData what a worker is started with
 * @property {import("node:worker_threads").MessagePort} port
 * @property {string[]} args
 * @property {"watch" | "store" | "refuse"} ordinary
 * @property {"run" | "real"} clock
 * @property {"fail" | "allow"} unrecorded
 * @property {number} rounds
 * @property {number} [count] how many agents there are, if that is given
 * @property {number} each how many operations of an object each agent makes at most
 * @property {import("./own-clock.mjs").ChosenTime} [chosenTime] if the tool chooses when time passes, and what chance
 * gives
 * @property {string} module the URL of the agents' module
 */

/**
 * @typedef {object} AgentGroupData what it gets when all workers have loaded that module
 * @property {ReturnType<typeof import("../board/group-memory.mjs").memoryOf>} memory
 * @property {import("../options/plan.mjs").Plan} plan
 * @property {import("../board/strategy.mjs").Rules} rules
 */

const {
  port, args, ordinary, clock, unrecorded, rounds, count, each, chosenTime, module: file,
} = /** @type {AgentWorkerData} */ (threads.workerData);
// Agents and their worker get another `postMessage`, which looks at what it is given.
const post = port.postMessage.bind(port);

/**
 * Which agent it is, or the number of agents if it only calls `init` and `check`; and how its calls are made. None can
 * be while its module is being loaded.
 * @type {{ agent: number, player: Player | undefined, chooser: Chooser | undefined, buffers: unknown[] }}
 */
const self = { agent: 0, player: undefined, chooser: undefined, buffers: [] };
const ownClock = new OwnClock(chosenTime === "lasting");
const chance = chosenTime === undefined ? new Chance() : new ChosenChance({
  choose: (count) => (isRecording() ? self.chooser?.random(count) : undefined),
  draw: () => (isRecording() ? self.chooser?.draw() : undefined),
});
const unseen = new Unseen(unrecorded === "allow");

/** @param {unknown} buffer */
const blockOf = (buffer) => {
  for (let block = 0; block < self.buffers.length; block += 1) {
    if (self.buffers[block] === buffer) return block;
  }
  return -1;
};

const isRecording = () => self.player !== undefined && self.player.isPlaying;

/** @returns {Player} who is there before the agent's code runs */
function playing() {
  const { player } = self;
  if (player === undefined) throw new EngineError("the agent has no part in a run yet");
  return player;
}

/**
 * Ends the run, and says where.
 * @param {string} what was done, as a message says it about an agent
 * @param {string} why
 */
const refuse = (what, why) =>
  playing().refuse(`${what} that the recorder can't record: ${described(new EngineError(why))}`);

const endUnseen = () => playing().endUnseen();

/** @type {import("./atomics.mjs").Asking} */
const asking = {
  // A clone of a buffer has its memory.
  blockOf: blockNumber,
  isRecording,
  make: (call, view, called) => playing().make(call, view, called),
  simulatesTime: clock === "run",
  sleep: (milliseconds) => playing().doze(milliseconds),
  refuse: (why) => refuse("made a call", why),
  unseen,
  endUnseen,
};

/** @param {object} memory that isn't recorded, before an ordinary access to it */
const seenUnrecorded = (memory) => {
  if (isRecording() && unseen.use(memory, "accesses")) endUnseen();
};

/** @type {import("./ordinary/context.mjs").Watching} */
const watching = {
  blockOf,
  seen: (place, from, to, writes) => {
    const { player } = self;
    if (player !== undefined && player.isPlaying) player.seen(place, from, to, writes);
  },
  isUnrecorded: (buffer) => unseen.isWatched(buffer) && isWatchable(buffer, seenUnrecorded),
  seenUnrecorded,
  copied: (memory) => unseen.addCopy(memory),
  isCalledByAgents,
  given: (what) => unseen.add({ kind: "given", what, place: sourceHere() }, true),
  refuse: (why) => {
    if (isRecording()) return refuse("did something", why);
    throw new EngineError(why);
  },
};

/** @typedef {{ later: PendingWork, messages: Messages }} UnfinishedWork */

/**
 * Replaces what shows an agent the world.
 * @returns {UnfinishedWork} what notes from now on what is left for later, and what nobody serves
 */
function installReplacements() {
  printAtOnce();
  // What the recorder has handed its worker is nothing for agents: a thread that was handed nothing has null.
  threads.workerData = null;
  const look = () => (chosenTime === undefined ? playing() : self.chooser)?.look() ?? 0;
  if (clock === "run") simulateTime(() => (isRecording() ? look() : 0));
  simulateChance(chance);
  // Else each small one has a place in memory that they share, which goes by all that were made before.
  /** @type {any} */ (Buffer).poolSize = 0;
  if (ordinary === "watch") watchOrdinary(watching);
  else watchWaysOut(watching);
  watchMaking(unseen);
  const messages = new Messages(unseen, { isPlaying: isRecording, end: endUnseen }, threads);
  globalThis.Atomics = recordedAtomics(Atomics, asking);
  if (ordinary !== "watch") shareWithContexts({ Atomics, SharedArrayBuffer, WebAssembly });
  showEngineTexts();
  syncBuiltinESMExports();
  return { later: new PendingWork(), messages };
}

/**
 * Imports the agents' module, and reports what it exports besides the agent.
 * @param {(url: string) => Promise<any>} load
 * @returns {Promise<import("./loaded-module.mjs").LoadedModule | undefined>}
 */
async function loaded(load) {
  try {
    const { module, has } = loadedModule(await load(file), { count, each });
    post(has);
    return module;
  } catch (problem) {
    post({ failed: described(problem) });
    return undefined;
  }
}

/**
 * What the worker alone writes: an agent's, or one that calls only `init` and `check`.
 * @param {AgentGroupData["memory"]} memory
 */
function ownMemory({ caller, notes, records, sources }) {
  const { agent } = self;
  if (agent === notes.length && caller !== undefined) return caller;
  return { notes: notes[agent], records: records[agent], sources: sources[agent] };
}

/**
 * The agent's player, over the memory that the group shares.
 * @param {AgentGroupData} handed
 * @param {UnfinishedWork} noting
 */
function playerOf({ memory, plan, rules }, { later, messages }) {
  later.enable();
  unseen.exclude(memory);
  const { notes, records, sources } = ownMemory(memory);
  unseen.notes = new Notes(notes);
  const board = new Board(memory.board, rules);
  const buffers = new RecordedMemory(memory.buffers, memory.copies);
  return new Player(self.agent, {
    board,
    memory: buffers,
    log: board.logIn(memory.log),
    stores: board.storesIn(memory.stores, buffers),
    records: new Records(records),
    sources: new Sources(sources),
    later,
    messages,
    unseen,
    chance,
    ownClock,
    lengths: plan.buffers,
    canBlock: plan.canBlock[self.agent],
    ordinary,
  });
}

/**
 * Does what it is ordered, again and again.
 * @param {import("./loaded-module.mjs").LoadedModule} module
 * @param {number} agents how many
 * @param {Chooser} chooser
 * @param {import("../objects/object-client.mjs").OperationMarks} [marks] what the agents of an object call
 */
function serve(module, agents, chooser, marks) {
  const player = playing();
  /** @type {Chooser["chosen"]} */
  const chosen = (asked, called) => {
    if (!isRecording()) throw new EngineError(NO_CHOICE);
    return chooser.chosen(asked, called);
  };
  const buffers = () => {
    /** @type {unknown[]} */
    const list = [];
    for (let block = 0; block < self.buffers.length; block += 1) list[block] = self.buffers[block];
    return list;
  };
  const words = () => {
    /** @type {string[]} */
    const list = [];
    for (let at = 0; at < args.length; at += 1) list[at] = args[at];
    return list;
  };
  // It is called without an object: none of the recorder's is its `this`.
  const { default: agent } = module;
  for (;;) {
    onceMore();
    const order = player.awaitOrder();
    const own = { agents, args: words() };
    const play = () => {
      chooser.begin();
      const { again, choose } = choicesBy(chosen);
      const given = { buffers: buffers(), agent: self.agent, agents, args: words(), again, choose };
      return marks === undefined ? agent(given) : agent(given, marks);
    };
    if (order === ORDER.PLAY) player.play(play, described);
    else player.serve(() => (order === ORDER.INIT ? module.init : module.check)?.(buffers(), own), described);
  }
}

/**
 * @param {AgentGroupData["memory"]} memory
 * @param {Player} player
 * @returns {import("../objects/object-client.mjs").OperationMarks | undefined} what it calls if it uses an object; the
 * worker that calls only `init` and `check` has none
 */
function marksOf({ operations }, player) {
  const own = operations?.[self.agent];
  return own === undefined ? undefined : recordedOperations(player, new OperationList(own));
}

/** @returns {Promise<any>} the next message, which mustn't have come yet */
const nextMessage = () => new Promise((done) => {
  port.once("message", done);
});

/** @param {(url: string) => Promise<any>} load imports a module */
export async function main(load) {
  const numbered = nextMessage();
  const noting = installReplacements();
  post({ begun: true });
  self.agent = (await numbered).agent;
  chance.agent = self.agent;
  chance.begin(0);
  /** @type {Promise<AgentGroupData>} */
  const handed = nextMessage();
  const module = await loaded(load);
  if (module === undefined) {
    port.close();
    return;
  }
  const given = await handed;
  self.buffers = given.memory.buffers;
  const player = playerOf(given, noting);
  self.player = player;
  post({ ready: true });
  const most = module.isObject && each !== Infinity ? each : rounds;
  self.chooser = new Chooser(player.part, new Choices(given.memory.choices[self.agent]), most);
  serve(module, given.plan.agents, self.chooser, marksOf(given.memory, player));
}
