// The standard streams between a Worker and the thread that has started it. They are node's own, over a port of the
// run: what is written to them is a message. A stream that the program doesn't ask for has no port: what the thread
// prints there is shown as it is printed.

import process from "node:process";
import stream from "node:stream";
import { isCalledByAgents } from "../../agent/frames.mjs";
import { defineProperty } from "../../primordials.mjs";
import {
  ReadableWorkerStdio, WritableWorkerStdio, kIncrementsPortRef, kStdioWantsMoreDataCallback, kWaitingStreams,
  messageTypes,
} from "../node/internals.mjs";
import { KIND } from "../ports/ports.mjs";

const Readable = /** @type {any} */ (stream).Readable;

/** @typedef {"stdin" | "stdout" | "stderr"} StreamName */
/** @typedef {Record<StreamName, boolean>} Piped which streams go by a port */
/**
 * @typedef {Piped & { port: any }} ThreadStreams what a thread gets of the streams; the port is undefined if none goes
 * by it
 */

/** @type {readonly ("stdout" | "stderr")[]} */
const PRINTED = Object.freeze(["stdout", "stderr"]);

/** Which of the thread's own streams go to the thread that has started it. */
const own = { stdout: false, stderr: false };

/** @param {any} options of a Worker @returns {Piped} what a thread doesn't take goes where this one's goes */
export const pipedOf = (options) => ({
  stdin: Boolean(options.stdin),
  stdout: own.stdout || Boolean(options.stdout),
  stderr: own.stderr || Boolean(options.stderr),
});

/** @param {Piped} piped @returns {boolean} */
export const isAnyPiped = ({ stdin, stdout, stderr }) => stdin || stdout || stderr;

/**
 * Takes the messages of streams.
 * @param {import("../ports/ports.mjs").Ports} ports
 * @param {any} port
 * @param {(name: StreamName) => any} streamOf
 */
function serve(ports, port, streamOf) {
  port[kWaitingStreams] = 0;
  ports.serve(port, ({ kind, value, isUnread }) => {
    if (kind !== KIND.MESSAGE || isUnread) return;
    const served = streamOf(value.stream);
    if (value.type === messageTypes.STDIO_WANTS_MORE_DATA) served[kStdioWantsMoreDataCallback]();
    else value.chunks.forEach((/** @type {any} */ { chunk, encoding }) => served.push(chunk, encoding));
  });
}

/** What a thread prints that isn't asked for by its option: it comes by no message. */
class Unasked extends Readable {
  #refuse;

  /** @param {() => never} refuse */
  constructor(refuse) {
    super();
    this.#refuse = refuse;
    this.resume();
  }

  _read() {}

  /** @param {any} type @param {any} listener */
  on(type, listener) {
    // While node makes it, it listens to nothing.
    if (type === "data" || type === "readable") this.#refuse();
    return super.on(type, listener);
  }
}
Unasked.prototype.addListener = Unasked.prototype.on;

/** The streams of a Worker in the thread that has started it. */
export class WorkersStdio {
  /** @type {Partial<Record<StreamName, any>>} */
  #streams = {};
  #hasEnded = false;

  /**
   * @param {import("../ports/ports.mjs").Ports} ports
   * @param {any} port to the thread; undefined: nothing is piped
   * @param {Piped} piped
   * @param {any} options of the Worker
   */
  constructor(ports, port, piped, options) {
    this.ports = ports;
    this.port = port;
    if (port === undefined) return;
    serve(ports, port, (name) => this.#streams[name]);
    if (piped.stdin) this.#streams.stdin = new WritableWorkerStdio(port, "stdin");
    PRINTED.forEach((name) => {
      if (!piped[name]) return;
      const readable = new ReadableWorkerStdio(port, name);
      this.#streams[name] = readable;
      if (!options[name]) this.#passOn(readable, process[name]);
    });
  }

  /** @returns {any} null, if the program hasn't asked for it */
  get stdin() {
    return this.#streams.stdin ?? null;
  }

  /**
   * @param {"stdout" | "stderr"} name
   * @param {(why: string) => never} refuse ends the run
   * @returns {any}
   */
  printed(name, refuse) {
    if (this.#streams[name] === undefined) {
      const why = `listened to Worker.${name} without the option ${name}: true, which isn't simulated`;
      this.#streams[name] = new Unasked(() => refuse(why));
      if (this.#hasEnded) this.#streams[name].push(null);
    }
    return this.#streams[name];
  }

  /** The thread has ended: what it has printed comes before the end of its streams. */
  end() {
    this.#hasEnded = true;
    const { ports, port } = this;
    if (port !== undefined) {
      const known = ports.known(port);
      for (let left = ports.take(port); left !== undefined; left = ports.take(port)) known.taker?.(left);
      known.refed = false;
      known.closed = true;
    }
    // The program may have replaced the iterators of arrays.
    PRINTED.forEach((name) => {
      const found = this.#streams[name];
      if (found !== undefined && !found.readableEnded) found.push(null);
    });
  }

  /**
   * What a thread prints goes where this thread's own output goes.
   * @param {any} from
   * @param {any} to
   */
  #passOn(from, to) {
    from[kIncrementsPortRef] = false;
    const before = to.getMaxListeners();
    to.setMaxListeners(0);
    from.pipe(to);
    to.setMaxListeners(before);
  }
}

/**
 * What the thread's streams are in a run in which nothing is piped.
 * @type {Partial<Record<StreamName, any>>}
 */
const plain = {};

/** @param {"stdout" | "stderr"} name @param {any} value that the thread's code finds */
function put(name, value) {
  defineProperty(process, name, { value, configurable: true });
  // The console keeps the stream that it has found first.
  /** @type {any} */ (console)[`_${name}`] = value;
}

/** @type {any} what `process.stdin` is, once the program has asked for it */
let input;

/** @type {(() => any) | undefined} makes it; undefined: it isn't simulated */
let makeInput;

/**
 * Gives a program its standard input. If it isn't simulated, it ends the run by its name and line.
 * @param {(why: string) => never} refuse
 */
export function installInput(refuse) {
  // Node itself, and what lists the members of its modules, gets none.
  const get = () => {
    if (!isCalledByAgents(get)) return undefined;
    input ??= makeInput?.();
    return input ?? refuse("read process.stdin, which isn't simulated");
  };
  defineProperty(process, "stdin", { configurable: true, get });
}

/** @returns {any} an input that has ended */
function noInput() {
  const readable = new Readable({ read() {} });
  readable.push(null);
  return readable;
}

/**
 * Gives the thread the streams that its Worker has asked for.
 * @param {import("../ports/ports.mjs").Ports} ports
 * @param {ThreadStreams} given
 */
export function beginStdio(ports, { port, stdin, ...printed }) {
  Object.assign(own, printed);
  if (port !== undefined) serve(ports, port, (name) => (name === "stdin" ? input : process[name]));
  for (const name of PRINTED.filter((each) => own[each])) {
    plain[name] = process[name];
    put(name, new WritableWorkerStdio(port, name));
  }
  input = stdin ? new ReadableWorkerStdio(port, "stdin") : undefined;
  makeInput = noInput;
}

/** Nothing of an earlier run is left. */
export function clearStdio() {
  input = undefined;
  makeInput = undefined;
  PRINTED.forEach((name) => {
    if (own[name]) put(name, plain[name]);
  });
  Object.assign(own, { stdout: false, stderr: false });
}
