// The simulator in this process: the module sabsim.wasm, which does what the program sabsim does, except races. It runs
// in node and in pages. This loader isn't proved.

const PAGE = 65536;
// A memory never shrinks. One that has grown beyond this isn't kept for the next call.
const MOST_KEPT = 2 ** 27;
const FIRST_ROOM = 2 ** 18;

/** What the exports take for a job and for a format, in their order from 0. */
const JOBS = ["replay", "check", "judge", "judge-trace"];
const FORMATS = ["plain", "explained", "json", "svg", "script"];

/** What the search takes for when waits' times may be over, in its order from 0. */
const TIMEOUTS = ["early", "last", "never"];

// Room for what a search finds, as far as it isn't known. A memory has 4 GiB, and the search needs most of it.
const ROOM_OF_SEARCH = 2 ** 26;
const ROOM_OF_STATES = 2 ** 29;

/** Where the numbers of a reply are in the memory, of eight bytes each. */
const REPLY = { status: 0, output: 8, complaint: 16, wants: 24, leftOut: 32, size: 40 };

/** What a reply wants to be read. */
const WANTS_NOTHING = 0;
const WANTS_STANDARD = 1;

/**
 * What the input is, by the status of the reply; `states` is a file of automata whose states are to be written.
 * @type {readonly InputKind[]}
 */
const INPUTS = ["script", "trace", "automata", "states"];

/**
 * How many bytes the output may have, if what is left out isn't made again.
 * @type {{ [kind in InputKind]?: number }}
 */
const ROOMS = { automata: ROOM_OF_SEARCH, states: ROOM_OF_STATES };

/** A list of no bytes. */
const NOTHING = new Uint8Array();

const decoder = new TextDecoder();

/** What the module gets of the input that a command line names. */
const GIVEN = { nothing: 0, bytes: 1, unreadable: 2 };

/**
 * @typedef {object} SimulatorJob what is to be done with an input
 * @property {"replay" | "check" | "judge" | "judge-trace"} job
 * @property {"plain" | "explained" | "json" | "svg" | "script"} [format] of the report; of a verdict plain or json;
 * plain if it isn't given
 * @property {boolean} [acts] as the program's option of this name; so are the next two
 * @property {boolean} [finish]
 * @property {boolean} [explain]
 */

/**
 * @typedef {object} CommandResult how the program ends
 * @property {number} status its exit status
 * @property {Uint8Array} output what it writes to standard output
 * @property {string} complaint what it writes to standard error
 */

/**
 * @typedef {object} SearchJob how the schedules of a file of automata are to be searched
 * @property {"early" | "last" | "never"} timeouts when a wait's time may be over
 * @property {number} limit how many states at most
 * @property {"plain" | "json"} [format] of what is found; plain if it isn't given
 * @property {boolean} [states] as the program's option of this name; so is the next one
 * @property {boolean} [explain]
 */

/** @typedef {CommandResult & { leftOut: number }} SearchCommandResult how many bytes of the output had no room */

/** @typedef {"script" | "trace" | "automata" | "states"} InputKind what a command line's input is */

/** The simulator has stopped in the middle of a call: it is defective, or it needs a deeper stack. */
export class Trapped extends Error {
  /** @param {unknown} cause */
  constructor(cause) {
    super(`the simulator stopped: ${cause instanceof Error ? cause.message : cause}`, { cause });
    this.name = "Trapped";
  }
}

/** The host has no memory for a call. */
class NoMemory extends Error {}

/** How the program ends if there is no memory. @returns {CommandResult} */
const outOfMemory = () => ({ status: 4, output: NOTHING, complaint: "sabsim: 5 OutOfMemory\n" });

/** A memory of the module, with the pages of it that are the host's. */
export class Instance {
  /** @param {WebAssembly.Module} module */
  constructor(module) {
    try {
      this.exports = new WebAssembly.Instance(module, {}).exports;
    } catch (error) {
      if (error instanceof RangeError) throw new NoMemory();
      throw error;
    }
    this.memory = this.exports.memory;
    this.view = new DataView(this.memory.buffer);
    this.bytes = new Uint8Array(this.memory.buffer);
    this.given = { at: 0, size: 0 };
    this.room = { at: 0, size: 0 };
  }

  /** Looks at the memory as it is: one that has grown has another buffer. */
  #look() {
    const { buffer } = this.memory;
    if (this.bytes.buffer === buffer) return;
    this.view = new DataView(buffer);
    this.bytes = new Uint8Array(buffer);
  }

  /**
   * @param {SimulatorJob} job
   * @param {Uint8Array} input
   * @returns {CommandResult}
   */
  run({ job, format = "plain", acts = false, finish = false, explain = false }, input) {
    const [which, how] = [JOBS.indexOf(job), FORMATS.indexOf(format)];
    const at = BigInt(this.#put(NOTHING, input));
    const size = BigInt(input.length);
    const { sabsim_run: run } = this.exports;
    return this.#ask((roomAt, roomSize, reply) => {
      run(which, how, Number(acts), Number(finish), Number(explain), at, size, roomAt, roomSize, reply);
    }, input.length).ended;
  }

  /**
   * @param {SearchJob} job
   * @param {Uint8Array} input
   * @param {number} room how many bytes the output may have
   * @returns {SearchCommandResult}
   */
  search({ timeouts, limit, format = "plain", states = false, explain = false }, input, room) {
    const numbers = [TIMEOUTS.indexOf(timeouts), limit, FORMATS.indexOf(format), Number(states), Number(explain)];
    const at = BigInt(this.#put(NOTHING, input));
    const size = BigInt(input.length);
    return this.#ask((...place) => {
      this.exports.sabsim_search(...numbers, at, size, ...place);
    }, 0, room).ended;
  }

  /**
   * @param {Uint8Array} line the words, with a 0 behind each
   * @param {number} given one of GIVEN
   * @param {Uint8Array} input
   * @param {boolean} isTerminal
   * @param {number} [room] how many bytes the output has at least room for
   * @returns {{ wants: number, ended: SearchCommandResult }}
   */
  command(line, given, input, isTerminal, room) {
    const at = this.#put(line, input);
    const words = [BigInt(at - line.length), BigInt(line.length)];
    const slice = [BigInt(at), BigInt(input.length)];
    return this.#ask((...place) => {
      this.exports.sabsim_command(...words, given, Number(isTerminal), ...slice, ...place);
    }, input.length, room);
  }

  /**
   * Returns a place in the memory for so many bytes: one that there is, or new pages.
   * @param {{ at: number, size: number }} place
   * @param {number} size
   */
  #placeFor(place, size) {
    if (size <= place.size) return place;
    const pages = Math.ceil(size / PAGE);
    try {
      return { at: this.memory.grow(pages) * PAGE, size: pages * PAGE };
    } catch {
      throw new NoMemory();
    }
  }

  /**
   * Puts two lists of bytes into the memory, one behind the other, behind the place for a reply.
   * @param {Uint8Array} first
   * @param {Uint8Array} second
   * @returns {number} the address of the second
   */
  #put(first, second) {
    this.given = this.#placeFor(this.given, REPLY.size + first.length + second.length);
    this.#look();
    const firstAt = this.given.at + REPLY.size;
    const secondAt = firstAt + first.length;
    this.bytes.set(first, firstAt);
    this.bytes.set(second, secondAt);
    return secondAt;
  }

  /**
   * Calls an export until its room is large enough.
   * @param {(at: bigint, size: bigint, reply: bigint) => void} call what is called with the room's address and length
   * and the reply's address
   * @param {number} size of the input: most reports are a few times as long
   * @param {number} [room] at least
   * @returns {{ wants: number, ended: SearchCommandResult }}
   */
  #ask(call, size, room = 0) {
    for (let wanted = Math.max(FIRST_ROOM, 4 * size, room); ; ) {
      this.room = this.#placeFor(this.room, wanted);
      this.#look();
      try {
        call(BigInt(this.room.at), BigInt(this.room.size), BigInt(this.given.at));
      } catch (error) {
        throw new Trapped(error);
      }
      this.#look();
      const output = this.#replied(REPLY.output);
      wanted = output + this.#replied(REPLY.complaint);
      if (wanted > this.room.size) continue;
      const bytes = this.bytes.slice(this.room.at, this.room.at + wanted);
      const complaint = output === wanted ? "" : decoder.decode(bytes.subarray(output));
      const [status, leftOut] = [this.#replied(REPLY.status), this.#replied(REPLY.leftOut)];
      const ended = { status, output: bytes.subarray(0, output), complaint, leftOut };
      return { wants: this.#replied(REPLY.wants), ended };
    }
  }

  /** @param {number} at where a number of the reply is @returns {number} */
  #replied(at) {
    const place = this.given.at + at;
    return this.view.getUint32(place + 4, true) * 2 ** 32 + this.view.getUint32(place, true);
  }
}

/** The simulator, for one call at a time. */
export class Simulator {
  /** @type {WebAssembly.Module} */
  #module;

  /** @type {Instance | undefined} */
  #kept;

  /** @param {WebAssembly.Module} module of sabsim.wasm, compiled */
  constructor(module) {
    this.#module = module;
  }

  /**
   * Does a job with an input.
   * @param {SimulatorJob} job
   * @param {Uint8Array} input
   * @returns {CommandResult}
   * @throws {Trapped}
   */
  run(job, input) {
    return this.#calling((instance) => instance.run(job, input));
  }

  /**
   * Searches the schedules of a file of automata, once. What has no room is left out at the end of a line.
   * @param {SearchJob} job
   * @param {Uint8Array} input
   * @param {number} [room] how many bytes the output may have
   * @returns {SearchCommandResult}
   * @throws {Trapped}
   */
  search(job, input, room = job.states ? ROOM_OF_STATES : ROOM_OF_SEARCH) {
    return { leftOut: 0, ...this.#calling((instance) => instance.search(job, input, room)) };
  }

  /**
   * Does what a command line asks for.
   * @param {string[]} words without the program's name; none has a character 0
   * @param {(file: string | undefined, kind: InputKind) => Uint8Array} read returns what a file has, or what standard
   * input has if none is named; if it throws, the input can't be read
   * @param {boolean} [isTerminal] whether refusals are to be explained, as on a terminal
   * @returns {SearchCommandResult}
   * @throws {Trapped}
   */
  command(words, read, isTerminal = false) {
    const line = new TextEncoder().encode(["sabsim", ...words].map((word) => `${word}\0`).join(""));
    const ended = this.#calling((instance) => {
      const first = instance.command(line, GIVEN.nothing, NOTHING, isTerminal);
      if (first.wants === WANTS_NOTHING) return first.ended;
      const kind = INPUTS[first.ended.status];
      const name = first.wants === WANTS_STANDARD ? undefined : decoder.decode(first.ended.output);
      const input = bytesOf(() => read(name, kind));
      const given = input === undefined ? GIVEN.unreadable : GIVEN.bytes;
      return instance.command(line, given, input ?? NOTHING, isTerminal, ROOMS[kind]).ended;
    });
    return { leftOut: 0, ...ended };
  }

  /**
   * Makes a call in an instance. After a trap nothing is known about its memory, so the next call has another one.
   * @param {(instance: Instance) => CommandResult} call
   * @returns {CommandResult}
   */
  #calling(call) {
    const kept = this.#kept;
    this.#kept = undefined;
    try {
      const instance = kept ?? new Instance(this.#module);
      const ended = call(instance);
      if (instance.memory.buffer.byteLength <= MOST_KEPT) this.#kept = instance;
      return ended;
    } catch (error) {
      if (error instanceof NoMemory) return outOfMemory();
      throw error;
    }
  }
}

/**
 * @param {() => Uint8Array} read
 * @returns {Uint8Array | undefined} undefined: it can't be read
 */
function bytesOf(read) {
  try {
    return read();
  } catch {
    return undefined;
  }
}
