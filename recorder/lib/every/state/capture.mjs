// The state of an agent as a text, at a call or a read that it makes: where each of its functions is, what they can
// still read, and all that can be reached from there.

import { framesHere } from "../../agent/frames.mjs";
import { mapGet, mapSet, stringify } from "../../primordials.mjs";
import { NodeSettings } from "./node-settings.mjs";
import { PRELUDE } from "./installed-loops.mjs";
import { readingIterators } from "./shown-iterators.mjs";
import { isStepOfOthers } from "./loop-steps.mjs";
import { CantShow } from "./object-kinds.mjs";
import { Walk } from "./walk.mjs";

/** @typedef {import("../rewriting/rewrite.mjs").Rewritten} Rewritten */

/** @typedef {{ name: string, id: number, isAccessor: boolean }} Called a function of the agents that runs */

const NOT_KNOWN = "a place that isn't known";
/** Getters that the engine may call when it makes a text or a number of something: it goes on with what they return. */
const CONVERSIONS = /^get (?:valueOf|toString|\[Symbol\.toPrimitive\])$/;
const LIBRARY = new URL("../../", import.meta.url).href;
const ELEMENTS = new URL("../../agent/ordinary/watched-elements.mjs", import.meta.url).href;
const ATOMICS = new URL("../../agent/atomics.mjs", import.meta.url).href;
const CHOOSING = new URL("../../agent/choosing.mjs", import.meta.url).href;
const CHANCE = new URL("../../agent/chosen-chance.mjs", import.meta.url).href;
const MARKS = new URL("../../objects/operation-marks.mjs", import.meta.url).href;
const TIME = new URL("../../agent/time.mjs", import.meta.url).href;
/** What a look at a clock or a draw of random bytes goes through: none has anything to do behind it. */
const OF_LOOKS = [TIME, ...["agent/ordinary/guards", "agent/ordinary/patch", "every/learning/realm"].map((name) =>
  new URL(`../../${name}.mjs`, import.meta.url).href)];
const LEARNING = new URL("../learning/", import.meta.url).href;
const STATE = new URL("./", import.meta.url).href;
const ITERATORS = new URL("./shown-iterators.mjs", import.meta.url).href;

export class Capture {
  /**
   * @param {import("./runtime.mjs").Runtime} runtime
   * @param {import("./named-builtins.mjs").NamedBuiltins} builtins
   * @param {Map<string, Rewritten>} texts the rewritten modules, by the names of their scripts
   * @param {() => object[]} buffers that agents are given
   * @param {{ hides?: string }} [flaw] what is left out on purpose, so that tests see that they notice it
   */
  constructor(runtime, builtins, texts, buffers, flaw = {}) {
    this.runtime = runtime;
    this.builtins = builtins;
    this.texts = texts;
    this.buffers = buffers;
    this.flaw = flaw;
    this.settings = new NodeSettings();
    /** Rewritten modules that aren't the agents' own: a line of them says nothing to people. */
    this.others = new Set(PRELUDE);
    /** @type {Map<string, number>} the places at which agents were, each with its number */
    this.places = new Map();
    /** The number of the place at which an agent is whose state was asked for last. */
    this.place = -1;
    /** Whether showing what there is, the last time, may have changed what agents find later. */
    this.hasChanged = false;
  }

  /** @returns {Walk} */
  #walk() {
    return new Walk(this.runtime, this.builtins, this.flaw);
  }

  /** @returns {string} what the modules keep */
  modules() {
    const walk = this.#walk();
    this.#putModules(walk);
    return this.#text(walk);
  }

  /** @param {Walk} walk @returns {string} */
  #text(walk) {
    try {
      return walk.text();
    } finally {
      this.hasChanged = walk.hasReadStack;
    }
  }

  /**
   * What runs now.
   * @param {string} asked what the agent asks for, on which its answer depends
   * @returns {string}
   * @throws {CantShow}
   */
  here(asked) {
    this.hasChanged = false;
    if (this.settings.haveChanged()) throw new CantShow("a setting of node's that was changed");
    const frames = framesHere();
    const walk = this.#walk();
    walk.put(asked);
    let first = 0;
    while (first < frames.length && !this.texts.has(frames[first].getFileName() ?? "")) first += 1;
    this.#notePlace(frames.find((site) => this.#isOfAgents(fileOf(site))));
    let called = needsDirect(frames.slice(0, first));
    for (const one of readingIterators()) {
      walk.put("|next");
      walk.value(one);
    }
    const { stack } = this.runtime;
    for (let at = stack.length - 1; at >= 0; at -= 1) {
      called = this.#putFrame(walk, frames[first], stack[at], called);
      first += 1;
      if (frames[first]?.getFunctionName() !== OF_FIELDS.name) continue;
      first += this.#putFields(walk, frames[first], frames[first + 1]);
      called = OF_FIELDS;
    }
    const below = frames[first]?.getFileName() ?? "";
    if (!below.startsWith(LEARNING)) throw new CantShow("more functions than were seen");
    this.#putModules(walk);
    return this.#text(walk);
  }

  /** @param {string} file @returns {boolean} whether it is of the agents */
  #isOfAgents(file) {
    return this.texts.has(file) && !this.others.has(file);
  }

  /** @param {NodeJS.CallSite | undefined} site at which an agent asks for something */
  #notePlace(site) {
    if (site === undefined) return;
    const place = `${site.getPosition()} ${site.getFileName()}`;
    const known = mapGet(this.places, place) ?? this.places.size;
    mapSet(this.places, place, known);
    this.place = known;
  }

  /** @param {number} number of a place @returns {string} its file, line and column */
  lineOfPlace(number) {
    const place = [...this.places.keys()][number];
    if (place === undefined) return NOT_KNOWN;
    return this.#lineAt(place.slice(place.indexOf(" ") + 1), Number.parseInt(place, 10));
  }

  /** @returns {string} the file, line and column at which an agent asks for something now */
  line() {
    const site = framesHere().find((one) => this.#isOfAgents(fileOf(one)));
    return site === undefined ? NOT_KNOWN : this.#lineAt(site.getFileName() ?? "", site.getPosition());
  }

  /** @param {Error} error of an agent @returns {string} the file, line and column at which it was made */
  lineOf(error) {
    const frames = [...String(error.stack).matchAll(/(file:\S+):(\d+):(\d+)/g)];
    const [, file, line, column] = frames.find(([, name]) => this.#isOfAgents(name)) ?? ["", ""];
    if (file === "") return NOT_KNOWN;
    const before = this.texts.get(file)?.code.split("\n").slice(0, Number(line) - 1) ?? [];
    return this.#lineAt(file, before.reduce((sum, { length }) => sum + length + 1, 0) + Number(column) - 1);
  }

  /** @param {string} file @param {number} position in its rewritten text */
  #lineAt(file, position) {
    return `${file.slice(file.lastIndexOf("/") + 1)}:${this.texts.get(file)?.lineOf(position)}`;
  }

  /**
   * What modules keep, also by the buffers: each agent gets them.
   * @param {Walk} walk
   */
  #putModules(walk) {
    for (const { environment, indexes } of this.runtime.modules) {
      walk.put("|module");
      for (const index of indexes) walk.cell([environment, index]);
    }
    walk.put("|buffers");
    for (const buffer of this.buffers()) walk.value(buffer);
  }

  /**
   * @param {Walk} walk
   * @param {NodeJS.CallSite | undefined} site
   * @param {import("./runtime.mjs").RewrittenFrame} frame
   * @param {Called | undefined} called the agents' own function that it has called
   * @returns {Called} its own function
   */
  #putFrame(walk, site, frame, called) {
    const name = site?.getFunctionName() ?? "";
    const text = this.texts.get(site?.getFileName() ?? "");
    if (site === undefined || text === undefined) throw new CantShow(`a function of the engine that calls ${name}`);
    const position = site.getPosition();
    const place = text.at(position);
    if (place.unknown !== undefined) throw new CantShow(place.unknown);
    if (called === OF_ITERATORS) needsStep(place);
    else if (called !== undefined) this.#needsOneWay(place, called);
    else if (place.step !== undefined) throw new CantShow("what the step of a loop has returned");
    const isSame = frame.id === place.fn && site.isConstructor() === place.makes;
    if (!isSame) throw new CantShow("another function than was seen");
    // The text of a stack has these, whether they can be read otherwise or not.
    const shown = `${name} ${site.getTypeName() ?? ""} ${site.getMethodName() ?? ""}`;
    walk.put(`|${place.fn}:${position} ${stringify(shown)}`);
    for (const [scope, index] of place.alive) walk.cell([frame.e[scope], index]);
    if (this.flaw.hides !== "temporaries") {
      for (const id of place.kept) {
        walk.put("~");
        walk.value(frame.t[id]);
      }
    }
    if (frame.cells !== null) for (const cell of frame.cells) walk.cell(cell);
    return { name, id: frame.id, isAccessor: place.isAccessor };
  }

  /**
   * The function that gives an object its fields keeps nothing but the object, and how far it is. The function that
   * runs now has the object, too.
   * @param {Walk} walk
   * @param {NodeJS.CallSite} site
   * @param {NodeJS.CallSite | undefined} below what has called it: a constructor, which may have no frame yet
   * @returns {number} how many functions have no frame
   */
  #putFields(walk, site, below) {
    walk.put(`|fields ${site.getPosition()} ${stringify(fileOf(site))}`);
    const place = this.texts.get(fileOf(below))?.at(/** @type {NodeJS.CallSite} */ (below).getPosition());
    if (place?.isBeginning !== true) return 1;
    walk.put(`|${place.fn}`);
    return 2;
  }

  /**
   * There must be one way only in which a function can have been called at a place: what the engine still does
   * afterwards isn't shown.
   * @param {import("../rewriting/call-sites.mjs").CallSite} place
   * @param {Called} called
   */
  #needsOneWay({ isAccess, isKeyed, isNamed, step }, { name, id, isAccessor }) {
    const { installed } = this.runtime;
    const converts = isAccessor && CONVERSIONS.test(name);
    const isOne = installed.has(id) ? isAccess && isNamed && !isAccessor && installed.isOfMember(id)
      : isAccess === isAccessor && !converts;
    const isOther = !isOne || isKeyed || (step !== undefined) !== isStepOfOthers(id);
    if (isOther) throw new CantShow(`${name || "a function"}, which the engine may call`);
  }
}

/** @type {Called} the step of a loop that is shown, or its `next` */
const OF_ITERATORS = Object.freeze({ name: "next", id: -1, isAccessor: false });

/** @type {Called} a function of Atomics, which isn't shown if the engine calls it, as it does to make a key a text */
const OF_ATOMICS = Object.freeze({ name: "a function of Atomics", id: -3, isAccessor: false });

/** @type {Called} what agents choose by, which is no accessor of theirs */
const OF_CHOICES = Object.freeze({ name: "a function that chooses", id: -2, isAccessor: false });

/** @type {Called} what gives an object its fields */
const OF_FIELDS = Object.freeze({ name: "<instance_members_initializer>", id: -4, isAccessor: false });

/**
 * A step that is shown must be that of a loop which gives a name the value, or a call of `next`.
 * @param {import("../rewriting/call-sites.mjs").CallSite} place
 */
function needsStep({ isAccess, step }) {
  if (step === "StepToPattern" || isAccess) throw new CantShow("what a pattern takes apart");
}

/** @param {NodeJS.CallSite | undefined} site @returns {string} */
const fileOf = (site) => site?.getFileName() ?? "";

/**
 * Above the agents' own functions may only be what a call of Atomics, a choice, or the read of an element begins with,
 * and a step of a loop that is shown: others of the recorder's functions have more to do.
 * @param {NodeJS.CallSite[]} frames
 * @returns {Called | undefined} such a step, or what is called, if it isn't the read of an element
 */
function needsDirect(frames) {
  const isOfRecorder = (/** @type {string} */ file) => file.startsWith(LEARNING) || file.startsWith(STATE);
  const at = frames.findIndex((site) => !isOfRecorder(fileOf(site)));
  const rest = frames.slice(at + 1);
  if (fileOf(frames[at]) === ATOMICS && rest.length === 0) return OF_ATOMICS;
  const isOfLook = (/** @type {NodeJS.CallSite} */ site) => OF_LOOKS.includes(fileOf(site));
  const isOfClient = fileOf(frames[at]) === CHOOSING || fileOf(frames[at]) === MARKS;
  if (isOfClient && rest.length === 0) return OF_CHOICES;
  if ((fileOf(frames[at]) === TIME || fileOf(frames[at]) === CHANCE) && rest.every(isOfLook)) return OF_CHOICES;
  const isElement = fileOf(frames[at]) === ELEMENTS && /\bget$/.test(frames[at].getFunctionName() ?? "");
  const isStep = rest.every((site) => fileOf(site) === ITERATORS);
  if (isElement && isStep) return rest.length > 0 ? OF_ITERATORS : undefined;
  const first = isElement ? rest.find((site) => fileOf(site) !== ITERATORS) : frames[at];
  const name = first?.getFunctionName() ?? "a function";
  throw new CantShow(`${name} of ${fileOf(first).replace(LIBRARY, "")}, which may have more to do`);
}

