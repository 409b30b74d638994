// Events as the DOM has them: what listens to what, what is assigned to `onmessage` and the like, and in which order
// all of them get an event. If a task calls a listener, microtasks are run after it, as the HTML standard has it.

import { apply, defineProperty, isObject, put, weakGet, weakSet } from "../../primordials.mjs";

const { TypeError: EngineTypeError, WeakMap: EngineWeakMap } = globalThis;
const EngineEvent = /** @type {any} */ (Event);

/**
 * @typedef {object} Listener
 * @property {string} type of its events
 * @property {any} callback a function, or an object with `handleEvent`
 * @property {boolean} capture
 * @property {boolean} once
 * @property {boolean} isHandler whether it was assigned, as to `onmessage`
 * @property {boolean} isRemoved
 */

/**
 * @typedef {object} TargetContext
 * @property {(thrown: unknown) => void} uncaught takes what a listener has thrown
 * @property {() => void} drain runs microtasks until there are none
 * @property {() => number} now the run's time
 */

/** An error that no code has caught, as an event. */
export class ErrorEvent extends EngineEvent {
  /** @param {string} type @param {any} [init] */
  constructor(type, init = {}) {
    super(type, init);
    const { message = "", filename = "", lineno = 0, colno = 0, error = null } = init;
    Object.assign(this, { message, filename, lineno, colno, error });
  }
}

/** A rejection that nobody handles, as an event. */
export class PromiseRejectionEvent extends EngineEvent {
  /** @param {string} type @param {any} init */
  constructor(type, init) {
    super(type, init);
    Object.assign(this, { promise: init.promise, reason: init.reason });
  }
}

const NO_OPTIONS = Object.freeze({ once: false, signal: undefined });

/** @param {any} how the third argument of addEventListener @returns {boolean} */
const captures = (how) => (isObject(how) ? Boolean(how.capture) : Boolean(how));

export class Targets {
  /** @type {WeakMap<object, Listener[]>} */
  #lists = new EngineWeakMap();

  /** @param {TargetContext} around */
  constructor(around) {
    this.around = around;
  }

  /** Nothing of an earlier run is left. */
  clear() {
    this.#lists = new EngineWeakMap();
  }

  /**
   * @param {object} target
   * @param {unknown} type
   * @param {any} callback
   * @param {any} how as addEventListener takes it
   */
  listen(target, type, callback, how) {
    if (callback === null || callback === undefined) return;
    if (!isObject(callback)) throw new EngineTypeError("the listener of an event must be a function or an object");
    const { once, signal } = isObject(how) ? how : NO_OPTIONS;
    if (signal?.aborted) return;
    const listener = { type: `${type}`, callback, capture: captures(how), once: Boolean(once) };
    if (this.#found(target, listener) !== undefined) return;
    this.#add(target, { ...listener, isHandler: false, isRemoved: false });
    signal?.addEventListener("abort", () => this.unlisten(target, type, callback, how));
  }

  /** @param {object} target @param {unknown} type @param {any} callback @param {any} how as above */
  unlisten(target, type, callback, how) {
    this.#remove(target, this.#found(target, { type: `${type}`, callback, capture: captures(how) }));
  }

  /**
   * Something is assigned to `onmessage` or the like. It keeps its place among the listeners as long as it is one.
   * @param {object} target
   * @param {string} type
   * @param {any} value
   */
  handle(target, type, value) {
    const found = this.#handler(target, type);
    if (!isObject(value)) this.#remove(target, found);
    else if (found !== undefined) found.callback = value;
    else this.#add(target, { type, callback: value, capture: false, once: false, isHandler: true, isRemoved: false });
  }

  /** @param {object} target @param {string} type @returns {any} what was assigned, or null */
  handlerOf(target, type) {
    return this.#handler(target, type)?.callback ?? null;
  }

  /** @param {object} target @param {string} type @returns {boolean} whether there is any listener */
  isListenedTo(target, type) {
    return this.#of(target).some((each) => each.type === type);
  }

  /**
   * Gives an event to all that listen.
   * @param {any} target
   * @param {any} event
   * @param {boolean} [isTask] whether a task does it, and not the program's code
   * @returns {boolean} false if it was cancelled
   */
  dispatch(target, event, isTask = true) {
    const { uncaught, drain, now } = this.around;
    let isStopped = false;
    for (const name of ["target", "srcElement", "currentTarget"]) show(event, name, target);
    if (isTask) show(event, "timeStamp", now());
    show(event, "stopImmediatePropagation", () => {
      isStopped = true;
    });
    for (const listener of [...this.#of(target)]) {
      if (isStopped) break;
      if (listener.isRemoved || listener.type !== event.type) continue;
      if (listener.once) this.#remove(target, listener);
      try {
        called(listener, target, event);
      } catch (thrown) {
        uncaught(thrown);
      }
      if (isTask) drain();
    }
    show(event, "currentTarget", null);
    return !event.defaultPrevented;
  }

  /** @param {object} target @returns {Listener[]} */
  #of(target) {
    return weakGet(this.#lists, target) ?? [];
  }

  /** @param {object} target @param {string} type @returns {Listener | undefined} */
  #handler(target, type) {
    return this.#of(target).find((each) => each.isHandler && each.type === type);
  }

  /** @param {object} target @param {{ type: string, callback: any, capture: boolean }} listener */
  #found(target, { type, callback, capture }) {
    return this.#of(target).find((each) =>
      !each.isHandler && each.type === type && each.callback === callback && each.capture === capture);
  }

  /** @param {object} target @param {Listener} listener */
  #add(target, listener) {
    weakSet(this.#lists, target, [...this.#of(target), listener]);
  }

  /** @param {object} target @param {Listener | undefined} listener */
  #remove(target, listener) {
    if (listener === undefined) return;
    listener.isRemoved = true;
    weakSet(this.#lists, target, this.#of(target).filter((each) => each !== listener));
  }
}

/** @param {object} event @param {string} name @param {unknown} value */
const show = (event, name, value) => void defineProperty(event, name, { value, writable: true, configurable: true });

/**
 * Calls a listener. What a handler returns may cancel the event: true for an error of the global object, else false.
 * @param {Listener} listener
 * @param {any} target
 * @param {any} event
 */
function called({ callback, isHandler }, target, event) {
  if (typeof callback !== "function") {
    if (!isHandler) callback.handleEvent(event);
    return;
  }
  const isOfError = isHandler && event.type === "error" && target === globalThis && event instanceof ErrorEvent;
  const { message, filename, lineno, colno, error } = event;
  const given = isOfError ? [message, filename, lineno, colno, error] : [event];
  const returned = apply(callback, target, given);
  if (isHandler && returned === isOfError) event.preventDefault();
}

/**
 * The methods of an event target. Called without a receiver they are those of the global object.
 * @param {Targets} targets
 * @returns {Record<string, (this: any, ...given: any[]) => any>}
 */
export const methodsOf = (targets) => ({
  addEventListener(type, callback, how) { targets.listen(this ?? globalThis, type, callback, how); },
  removeEventListener(type, callback, how) { targets.unlisten(this ?? globalThis, type, callback, how); },
  dispatchEvent(event) { return targets.dispatch(this ?? globalThis, event, false); },
});

/** @param {object} owner that gets these methods @param {Targets} targets */
export function putMethods(owner, targets) {
  for (const [name, method] of Object.entries(methodsOf(targets))) put(owner, name, method);
}

/**
 * Gives objects a property to which a handler is assigned.
 * @param {object} owner
 * @param {string} type of the events, such as `message`
 * @param {Targets} targets
 * @param {(target: any) => void} [assigned] called when one was
 */
export function putHandler(owner, type, targets, assigned = () => {}) {
  defineProperty(owner, `on${type}`, {
    configurable: true,
    enumerable: true,
    get() {
      return targets.handlerOf(this ?? globalThis, type);
    },
    set(value) {
      targets.handle(this ?? globalThis, type, value);
      assigned(this ?? globalThis);
    },
  });
}
