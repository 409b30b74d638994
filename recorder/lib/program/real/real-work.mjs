// What a thread of a program asks of the machine, and the machine answers: by sockets, pipes and child processes. It is
// noted by name and line, since such a run repeats only as far as these answers do.

import { activeHandles } from "../node/internals.mjs";

/** What is under way in a thread while node reads a module or a file. */
export const FILE_REQUESTS = new Set(["FSReqPromise", "FSReqCallback", "FileHandleCloseReq", "CloseReq"]);

/** What each thread has by itself, and isn't work that is under way. */
const OURS = new Set(["Immediate", "MessagePort", "Timeout", ...FILE_REQUESTS]);

/** What node calls the work whose answers the machine gives: open sockets, pipes and processes, and requests. */
const REAL = new RegExp("^(?:Connect|GetAddrInfo|GetNameInfo|Http2|JS|Libuv|Pipe|Process|Query|Send|Shutdown|Simple"
  + "|TCP|TLS|UDP|Write)");

/**
 * Of these, what another part of the run has to cause. The others come from a child process, or from what a request
 * goes to.
 */
const FROM_OTHERS = /^(?:Http2|JS|PipeServer|TCP|TLS|UDP)/;

/** @type {Readonly<Record<string, string>>} */
const TEXTS = Object.freeze({
  PipeServerWrap: "a listening pipe", PipeWrap: "a pipe", ProcessWrap: "a child process",
  TCPServerWrap: "a listening socket", TCPSocketWrap: "a socket", TLSWrap: "a socket", UDPWrap: "a datagram socket",
});

/** Names of what leaves nothing in a thread after it was ended. */
const OF_CHILDREN = /^child_process\./;

/**
 * @typedef {object} Pending what the machine may bring to a thread
 * @property {boolean} isSome
 * @property {boolean} byThemselves whether some of it comes though the thread and others do nothing more
 * @property {string[]} texts what the thread waits for, in words
 */

/** @type {Pending} */
const NOTHING = Object.freeze({ isSome: false, byThemselves: false, texts: [] });

/** @param {string} name @returns {string} */
const textOf = (name) => TEXTS[name] ?? `a request (${name})`;

/**
 * @param {string} name of a resource of node's
 * @returns {boolean} whether it isn't simulated, and the machine doesn't answer it
 */
export const isForeign = (name) => !OURS.has(name) && !REAL.test(name);

/**
 * What is under way in a thread.
 * @param {string[]} resources of node's that are active
 * @param {(what: string) => never} refuse is called with what isn't simulated, and what the machine doesn't answer
 * either
 * @returns {Pending}
 */
export function pendingOf(resources, refuse) {
  const others = resources.filter((name) => !OURS.has(name));
  if (others.length === 0) return NOTHING;
  const foreign = others.find(isForeign);
  if (foreign !== undefined) refuse(foreign);
  return { isSome: true, byThemselves: others.some((name) => !FROM_OTHERS.test(name)), texts: others.map(textOf) };
}

export class RealWork {
  /** @type {import("../../memory/notes.mjs").Note[]} what the program has used in this run */
  #used = [];

  /** Whether more than child processes was used. */
  #isLasting = false;

  /**
   * @param {import("../../memory/notes.mjs").Notes} notes of the thread
   * @param {import("./children.mjs").Children} children
   * @param {() => string} here where the program's code is
   */
  constructor(notes, children, here) {
    this.notes = notes;
    this.children = children;
    this.here = here;
    children.onBegin = () => this.begins();
  }

  /** @param {string} what the program has called */
  note(what) {
    const place = this.here();
    if (this.#used.some((each) => each.what === what && each.place === place)) return;
    this.#used.push({ kind: "real", what, place });
    if (!OF_CHILDREN.test(what)) this.#isLasting = true;
    this.notes.write(this.#used);
  }

  /** A child process begins. If node calls functions by other names, as promisify does, nothing is noted yet. */
  begins() {
    if (!this.#used.some(({ what }) => OF_CHILDREN.test(what))) this.note("child_process.spawn");
  }

  /** The thread has ended: others see that its sockets are closed. None of its own code goes on. */
  close() {
    if (this.#used.length === 0) return;
    activeHandles().forEach((handle) => {
      // Of all that node lists here, only sockets can be destroyed, and only servers and sockets for datagrams have
      // these methods.
      if (typeof handle.destroy === "function") handle.destroy();
      else if (typeof handle.address === "function") handle.close();
    });
  }

  /**
   * The thread's part in a run is over: nothing of it may get into the next one.
   * @param {() => void} home is called if nothing is left, perhaps later
   * @param {() => void} parkForever is called if something may be: then the thread never begins again
   */
  leave(home, parkForever) {
    if (this.#used.length === 0) return home();
    if (this.#isLasting) this.close();
    const isLasting = this.#isLasting;
    this.#used = [];
    this.#isLasting = false;
    this.children.end((areEnded) => (areEnded && !isLasting ? home() : parkForever()));
  }
}
