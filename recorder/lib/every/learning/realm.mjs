// The world of an agent that is learned: `Atomics`, arrays, clocks and chance that ask, and no output.

import { syncBuiltinESMExports } from "node:module";
import { types } from "node:util";
import { askedOf } from "../../../script/choices.mjs";
import { recordedAtomics } from "../../agent/atomics.mjs";
import { ChosenChance } from "../../agent/chosen-chance.mjs";
import { blockNumber } from "../../agent/ordinary/context.mjs";
import { watchOrdinary } from "../../agent/ordinary/watch.mjs";
import { simulateChance, simulateTime } from "../../agent/time.mjs";
import { getPromiseDetails, previewEntries } from "../../program/node/internals.mjs";
import { watchInstalled } from "../state/installed.mjs";
import { watchBinding } from "../state/bound-functions.mjs";
import { watchPrototypes } from "../state/first-prototypes.mjs";
import { watchIntl } from "../state/intl-objects.mjs";
import { watchSymbols } from "../state/made-symbols.mjs";
import { knowPromises } from "../state/promises.mjs";
import { watchWeak } from "../state/weak-entries.mjs";
import { standForIterators } from "../state/shown-iterators.mjs";
import { checkEngineWrites } from "./engine-writes.mjs";
import { showNumber } from "./given-number.mjs";
import { knowNext } from "./iterators.mjs";
import { NodePlatform } from "./node-platform.mjs";

/**
 * Replaces what shows an agent the world. It is called once, before any of the agents' code is loaded.
 * @param {import("./asking.mjs").Asker} asker
 * @returns {NodePlatform} what stands for node's modules
 */
export function installRealm(asker) {
  const isRecording = () => asker.run !== undefined;
  /** @param {string} what @returns {never} */
  const refuse = (what) => asker.refuse(what);
  simulateTime((isPlain) => (isRecording() ? asker.look(isPlain) : 0));
  const needRecording = () => isRecording() || refuse("it asks for a random number");
  simulateChance(new LearnedChance({
    choose: (count, what) => needRecording() && asker.choose(askedOf("random", count), what),
    draw: (what) => needRecording() && asker.draw(what),
  }, () => refuse("it draws random bytes into shared memory")));
  watchOrdinary({
    blockOf: (buffer) => asker.buffers.indexOf(/** @type {any} */ (buffer)),
    seen: (place, from, to, writes) => {
      if (isRecording()) asker.seen(place, from, to, writes);
    },
    isUnrecorded: () => false,
    seenUnrecorded: () => {},
    copied: () => {},
    isCalledByAgents: () => true,
    given: (what) => refuse(what),
    refuse: (why) => refuse(why),
  });
  globalThis.Atomics = recordedAtomics(Atomics, /** @type {any} */ ({
    blockOf: blockNumber,
    isRecording,
    make: asker.make.bind(asker),
    simulatesTime: true,
    sleep: () => refuse("it waits on memory that isn't recorded"),
    refuse,
    unseen: new Others(),
    endUnseen: () => refuse("it uses shared memory that isn't recorded"),
  }));
  watchInstalled();
  checkEngineWrites(refuse);
  showNumber();
  // An async function of an agent that is broken off leaves a promise, and nobody waits for it.
  process.on("unhandledRejection", () => {});
  syncBuiltinESMExports();
  return new NodePlatform(refuse).install();
}

/**
 * Replaces what agents can hold, so that what it keeps can be shown. It is called once, behind `installRealm`, if the
 * agents' states are to be shown.
 */
export function installShown() {
  standForIterators(previewEntries);
  knowPromises(getPromiseDetails);
  watchPrototypes();
  watchWeak();
  watchBinding();
  watchIntl();
  watchSymbols();
  knowNext();
  syncBuiltinESMExports();
}

/** Draws by choice. Shared bytes are refused: they are written before it is known what is drawn. */
class LearnedChance extends ChosenChance {
  /** @param {import("../../agent/chosen-chance.mjs").ChanceChoices} choices @param {() => never} refuse */
  constructor(choices, refuse) {
    super(choices);
    this.refuse = refuse;
  }

  /** @override @param {Uint8Array} bytes @param {import("../../agent/time.mjs").RandomElements} elements */
  fill(bytes, elements) {
    if (types.isSharedArrayBuffer(bytes.buffer)) this.refuse();
    super.fill(bytes, elements);
  }
}

/** Shared memory that isn't recorded: none may be used. */
class Others {
  isAllowed = false;
  /** @type {never[]} */
  lasting = [];

  /** @param {unknown} buffer */
  isProgramMemory(buffer) {
    return types.isSharedArrayBuffer(buffer);
  }

  use() {
    return true;
  }

  isUsed() {
    return true;
  }

  wait() {}
}
