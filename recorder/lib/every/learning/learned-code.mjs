// The agents' code, rewritten so that its state can be shown, and begun anew whenever its modules keep something else
// than at first.

import { basename } from "node:path";
import { described } from "../../agent/described.mjs";
import { isObjectModule, useOf } from "../../objects/object-module.mjs";
import { Refused } from "../../options/refused.mjs";
import { NamedBuiltins } from "../state/named-builtins.mjs";
import { Capture } from "../state/capture.mjs";
import { beginInstalled, numberOf } from "../state/installed.mjs";
import { installLoops, removeLoops } from "../state/installed-loops.mjs";
import { guardOwn } from "../state/own-objects.mjs";
import { Runtime } from "../state/runtime.mjs";
import { knowFirstPrototypes } from "../state/first-prototypes.mjs";
import { CantShow } from "../state/object-kinds.mjs";
import { keyOf } from "./asked-nodes.mjs";
import { AgentModules } from "./agent-modules.mjs";
import { hadOtherNext } from "./iterators.mjs";
import { PART } from "./learning-progress.mjs";
import { madePrelude } from "./prelude-modules.mjs";

const REPLACES_NEXT =
  "--all can't learn what the agents do: a module replaces the `next` of all iterators of arrays";
const CLIENT = new URL("../../objects/object-client.mjs", import.meta.url).href;

/** @typedef {import("./asked-nodes.mjs").AskedNode} AskedNode */

export class LearnedCode {
  /** @type {Map<string, Record<string, any>> | undefined} what the modules export */
  #exports;

  /** @type {string | undefined} what the modules keep at first; undefined: that can't be shown */
  #first;

  /** Whether agents need other modules. */
  #isLeft = false;

  /**
   * @param {string} url of the agents' module
   * @param {import("./asking.mjs").Asker} asker
   * @param {AgentModules} graph
   * @param {Runtime} runtime
   * @param {NamedBuiltins} builtins
   * @param {Capture} capture
   */
  constructor(url, asker, graph, runtime, builtins, capture) {
    this.url = url;
    this.asker = asker;
    this.graph = graph;
    this.runtime = runtime;
    this.builtins = builtins;
    this.capture = capture;
    /** How many operations each agent makes at most, if the module is one of an object. */
    this.each = Infinity;
    /** How often the modules were made anew. */
    this.renewals = -1;
    this.renew();
    if (this.isObject) this.#takeClient();
    this.#first = this.kept();
  }

  /** What the agents' module exports. @returns {{ agent: any, init: any, check: any, setup: any }} */
  get exports() {
    const { default: agent, ...own } = this.#own();
    if (this.isObject) return { init: own.init, check: own.check, setup: own.setup, agent: this.#client(false) };
    if (typeof agent !== "function") throw new Refused("the module has no function as its default export");
    const { init = agent.init, check = agent.check, setup = agent.setup } = own;
    return { agent, init, check, setup };
  }

  /** Whether the module is one of an object: its agents are the tool's. */
  get isObject() {
    return isObjectModule(this.#own());
  }

  /** Whether what is right of the object is said by a class of its own. */
  get hasModel() {
    return this.#own().Model !== undefined;
  }

  /** @returns {import("../../objects/object-calls.mjs").ObjectCall[]} what the agents of an object may call */
  calls() {
    return this.#use(true).calls;
  }

  /** @returns {Function} one agent alone, of modules that keep what they keep at first, which uses what is right */
  modelNow() {
    this.#needFirst();
    return this.#client(true);
  }

  /** @returns {Record<string, any>} */
  #own() {
    return /** @type {Record<string, any>} */ (this.#exports?.get(this.url));
  }

  /** The agents of an object are rewritten as its own code is. */
  #takeClient() {
    this.graph.take(CLIENT);
    this.capture.texts.set(CLIENT, /** @type {any} */ (this.graph.texts.get(CLIENT)));
    this.capture.others.add(CLIENT);
    this.renew();
  }

  /** @param {boolean} isAlone @returns {Function} */
  #client(isAlone) {
    const { clientOf } = /** @type {any} */ (this.#exports?.get(CLIENT));
    return clientOf(this.#use(isAlone));
  }

  /** @param {boolean} isAlone @returns {import("../../objects/object-client.mjs").ObjectUse} */
  #use(isAlone) {
    try {
      return useOf(this.#own(), { isAlone, each: isAlone ? Infinity : this.each, staying: 0 });
    } catch (thrown) {
      throw new Refused(`--all can't load ${basename(this.url)}: ${/** @type {Error} */ (thrown).message}`);
    }
  }

  #needFirst() {
    if (this.#isLeft || this.#first === undefined || this.kept() !== this.#first) this.renew();
    this.runtime.beginAgent();
  }

  /** From now on only `init` and `check` have the modules that are there: agents get others. */
  leave() {
    this.#isLeft = true;
  }

  /** @returns {Function} the agent's function, of modules that keep what they keep at first */
  agentNow() {
    this.#needFirst();
    return this.exports.agent;
  }

  /** @param {AskedNode} asked @returns {string} the state of the agent that asks for it */
  key(asked) {
    return this.capture.here(keyOf(asked));
  }

  /** @returns {boolean} whether the agent may go on otherwise than if its state had not been shown */
  hasChanged() {
    return this.capture.hasChanged;
  }

  /** @returns {string} the file, line and column at which an agent asks for something now */
  line() {
    return this.capture.line();
  }

  /** @returns {number} the number of the place at which the agent is whose state was asked for last */
  place() {
    return this.capture.place;
  }

  /** @param {number} place @returns {string} its file, line and column */
  lineOfPlace(place) {
    return this.capture.lineOfPlace(place);
  }

  /** @param {Error} error of an agent @returns {string} the same of where it was made */
  lineOf(error) {
    return this.capture.lineOf(error);
  }

  /** Makes the modules anew. */
  renew() {
    this.renewals += 1;
    this.#isLeft = false;
    this.runtime.beginModules();
    this.#exports = this.#made();
    if (hadOtherNext()) throw new Refused(REPLACES_NEXT);
    this.runtime.endModules();
  }

  #made() {
    try {
      return this.asker.watched(PART.MODULE, () => this.graph.made(this.runtime.calls));
    } catch (thrown) {
      throw new Refused(`--all can't load ${basename(this.url)}: ${described(thrown).split("\n")[0]}`);
    }
  }

  /** @returns {string | undefined} what the modules keep now; undefined: that can't be shown */
  kept() {
    try {
      const kept = this.capture.modules();
      return this.capture.hasChanged ? undefined : kept;
    } catch (why) {
      if (!(why instanceof CantShow)) throw why;
      return undefined;
    }
  }
}

/**
 * Loads the agents' code.
 * @param {string} url
 * @param {import("./asking.mjs").Asker} asker that is to say where agents are
 * @param {import("./node-platform.mjs").NodePlatform} platform
 * @param {{ hides?: string }} [flaw] what is left out of its state on purpose, for tests
 * @returns {LearnedCode}
 * @throws {Refused} if a module of it can't be shown or loaded
 */
export function loadCode(url, asker, platform, flaw) {
  guardOwn(undefined);
  const runtime = new Runtime();
  removeLoops();
  const { prelude, texts: own } = madePrelude(platform, runtime);
  installLoops(prelude);
  const graph = new AgentModules(platform);
  graph.take(url, true);
  const builtins = new NamedBuiltins();
  builtins.take({ ...platform.others(), ...graph.nodes });
  guardOwn({
    nameOf: (object) => builtins.nameOf(object),
    isNamespace: (object) => graph.namespaces.has(object),
    isOfModules: (fn) => runtime.functions.has(fn) || numberOf(fn) !== undefined,
    add: (object, name) => void builtins.names.set(object, name),
    refuse: (why) => asker.refuse(why),
  });
  knowFirstPrototypes(builtins);
  runtime.installed = beginInstalled();
  const texts = new Map([...own, ...graph.texts]);
  const capture = new Capture(runtime, builtins, texts, () => asker.buffers, flaw);
  asker.lineHere = capture.line.bind(capture);
  return new LearnedCode(url, asker, graph, runtime, builtins, capture);
}
