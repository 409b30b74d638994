// What `fs.promises.open` gives a program: the methods of node's FileHandle, made of the synchronous functions.

import { EventEmitter } from "node:events";
import fs from "node:fs";
import readline from "node:readline";
import { nodeError } from "../node/node-error.mjs";
import { promiseLater } from "./sync-calls.mjs";

/** @typedef {import("./sync-calls.mjs").SyncVersionContext} SyncVersionContext */

const files = /** @type {any} */ (fs);
const Emitter = /** @type {any} */ (EventEmitter);

/** The functions of `fs` that synchronous versions call: node's own, until `takeWatching`. */
export const engine = { ...files };

/** Those that get memory. */
const WITH_MEMORY = Object.freeze([
  "appendFileSync", "readSync", "readvSync", "writeFileSync", "writeSync", "writevSync",
]);

/** Takes the functions that `fs` has now: they see recorded memory that they are given. */
export function takeWatching() {
  for (const name of WITH_MEMORY) engine[name] = files[name];
}

export const BUFFER_SIZE = 16_384;

/** How many requests read a file that is open: its size, and then its bytes. */
const READS_WHOLE = 2;

/** @param {any} options @returns {string | null | undefined} */
const encodingOf = (options) => (typeof options === "string" ? options : options?.encoding);

/** @param {any} data @returns {boolean} whether it comes in pieces */
export const isInPieces = (data) => data !== null && typeof data === "object" && !ArrayBuffer.isView(data)
  && (Symbol.iterator in data || Symbol.asyncIterator in data);

/** @param {object} members @returns {any} as node's results are, without a prototype */
const result = (members) => Object.assign(Object.create(null), members);

/** The name is node's. */
export class FileHandle extends Emitter {
  /** @type {SyncVersionContext} */
  #given;
  #fd;
  /** @type {Promise<void> | undefined} */
  #closing;

  /** @param {SyncVersionContext} given @param {number} fd */
  constructor(given, fd) {
    super();
    this.#given = given;
    this.#fd = fd;
  }

  get fd() {
    return this.#fd;
  }

  /**
   * @param {string} name
   * @param {(fd: number) => any} act
   * @param {{ signal?: AbortSignal, trips?: number }} [how]
   * @returns {Promise<any>}
   */
  #do(name, act, how = {}) {
    const { signal, trips = 1 } = how;
    return promiseLater(this.#given, name, () => {
      if (this.#fd === -1) throw nodeError("EBADF", "file closed", { syscall: name });
      return act(this.#fd);
    }, { signal, order: { trips, of: this } });
  }

  /** @param {any} data @param {any} [options] */
  appendFile(data, options) {
    return this.writeFile(data, options);
  }

  /** @param {any} mode */
  chmod(mode) {
    return this.#do("fchmod", (fd) => engine.fchmodSync(fd, mode));
  }

  /** @param {number} user @param {number} group */
  chown(user, group) {
    return this.#do("fchown", (fd) => engine.fchownSync(fd, user, group));
  }

  close() {
    if (this.#fd === -1) return this.#closing ?? Promise.resolve();
    const fd = this.#fd;
    this.#fd = -1;
    // Node closes it when all that was begun is done.
    const order = { trips: 1, of: this, isLast: true };
    this.#closing = promiseLater(this.#given, "close", () => engine.closeSync(fd), { order });
    this.emit("close");
    return this.#closing;
  }

  /** @param {any} [options] */
  createReadStream(options) {
    return new files.ReadStream("", { ...options, fd: this.#fd, fs: this.#functions() });
  }

  /** @param {any} [options] */
  createWriteStream(options) {
    return new files.WriteStream("", { ...options, fd: this.#fd, fs: this.#functions() });
  }

  datasync() {
    return this.#do("fdatasync", (fd) => engine.fdatasyncSync(fd));
  }

  /** @param {any[]} given a buffer with offset, length and position, or with options; or options alone */
  read(...given) {
    const [first, ...rest] = given;
    const isView = ArrayBuffer.isView(first);
    const buffer = isView ? first : first?.buffer ?? Buffer.alloc(BUFFER_SIZE);
    const all = (isView ? rest : given).filter((each) => each !== undefined);
    return this.#do("read", (fd) => result({ bytesRead: engine.readSync(fd, buffer, ...all), buffer }));
  }

  /** @param {any} [options] */
  readFile(options) {
    const how = { signal: options?.signal, trips: READS_WHOLE };
    return this.#do("read", (fd) => engine.readFileSync(fd, encodingOf(options)), how);
  }

  /** @param {any} [options] */
  readLines(options) {
    return readline.createInterface({ input: this.createReadStream(options), crlfDelay: Infinity });
  }

  /** @param {any} buffers @param {any} [position] */
  readv(buffers, position) {
    return this.#do("read", (fd) => result({ bytesRead: engine.readvSync(fd, buffers, position), buffers }));
  }

  /** @param {any} [options] */
  stat(options) {
    return this.#do("fstat", (fd) => engine.fstatSync(fd, options));
  }

  sync() {
    return this.#do("fsync", (fd) => engine.fsyncSync(fd));
  }

  /** @param {number} [length] */
  truncate(length) {
    return this.#do("ftruncate", (fd) => engine.ftruncateSync(fd, length));
  }

  /** @param {any} access @param {any} change */
  utimes(access, change) {
    return this.#do("futimes", (fd) => engine.futimesSync(fd, access, change));
  }

  /** @param {any} data @param {any[]} rest */
  write(data, ...rest) {
    return this.#do("write", (fd) => result({ bytesWritten: engine.writeSync(fd, data, ...rest), buffer: data }));
  }

  /** @param {any} data @param {any} [options] */
  async writeFile(data, options) {
    const write = (/** @type {any} */ piece) =>
      this.#do("write", (fd) => engine.appendFileSync(fd, piece, encodingOf(options)), { signal: options?.signal });
    if (!isInPieces(data)) return write(data);
    for await (const piece of data) await write(piece);
    return undefined;
  }

  /** @param {any} buffers @param {any} [position] */
  writev(buffers, position) {
    return this.#do("write", (fd) => result({ bytesWritten: engine.writevSync(fd, buffers, position), buffers }));
  }

  getAsyncId() {
    return this.#fd;
  }

  async [/** @type {any} */ (Symbol).asyncDispose ?? Symbol.for("nodejs.asyncDispose")]() {
    await this.close();
  }

  /** What a stream uses of `fs`: it closes the handle. */
  #functions() {
    const close = (/** @type {number} */ _, /** @type {(error: any) => void} */ done) => {
      this.close().then(() => done(null), done);
    };
    const { open, read, write, writev } = files;
    return { open, read, write, writev, close };
  }
}
