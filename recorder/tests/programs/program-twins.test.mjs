// Slow functions by their synchronous twins: each scenario runs by node's own functions and by the twins, and has to
// log the same.

import assert from "node:assert/strict";
import { AsyncLocalStorage } from "node:async_hooks";
import crypto from "node:crypto";
import fs from "node:fs";
import { tmpdir } from "node:os";
import { join } from "node:path";
import { Readable, pipeline } from "node:stream";
import { pipeline as piped } from "node:stream/promises";
import { test } from "node:test";
import timers from "node:timers";
import util from "node:util";
import { putSyncVersions } from "../../lib/program/sync/sync-versions.mjs";

const { setImmediate: turn } = timers;
const { mkdtempSync, realpathSync, rmSync, writeFileSync, readFileSync, mkdirSync } = fs;
let playing = false;
let tasks = [];
const asked = [];
putSyncVersions({ isPlaying: () => playing, later: (name, act) => {
  asked.push(name);
  tasks.push(act);
} });

/** A value as text, without what differs from run to run. */
function shown(value, folder) {
  if (value instanceof Error) {
    const { name, code, errno, syscall, path, dest, message } = value;
    return shown({ name, code, errno, syscall, path, dest, message }, folder);
  }
  if (value?.constructor?.name?.endsWith("Stats")) {
    return `Stats ${typeof value.size} ${value.isFile()} ${typeof value.mtimeMs}`;
  }
  if (value?.constructor?.name === "StatFs") return `StatFs ${typeof value.bsize}`;
  // The end of what mkdtemp makes is drawn.
  return util.inspect(value, { depth: 4 }).replaceAll(folder, "FOLDER").replaceAll(/(none\/x)\w{6}/g, "$1XXXXXX");
}

/** Runs a scenario in a folder of its own. */
async function logOf(scenario, loop) {
  // Functions that follow links answer with this path.
  const folder = realpathSync(mkdtempSync(join(tmpdir(), "recorder-")));
  const lines = [];
  const log = (...values) => lines.push(values.map((value) => shown(value, folder)).join(" "));
  writeFileSync(join(folder, "a.txt"), "text of a\nsecond line\n");
  mkdirSync(join(folder, "dir/deep"), { recursive: true });
  writeFileSync(join(folder, "dir/b.txt"), "b");
  writeFileSync(join(folder, "dir/deep/c.txt"), "c");
  try {
    let ended = false;
    const end = Promise.resolve(scenario((name) => join(folder, name), log)).finally(() => { ended = true; });
    end.catch(() => {});
    await loop(() => ended);
    await end;
  } finally {
    rmSync(folder, { recursive: true, force: true });
  }
  return lines;
}

const realLoop = async (isOver) => {
  while (!isOver()) await new Promise((done) => turn(done));
};

async function taskLoop(isOver) {
  for (let idle = 0; !isOver() && idle < 200;) {
    await new Promise((done) => turn(() => {
      const act = tasks.shift();
      idle = act === undefined ? idle + 1 : 0;
      act?.();
      turn(done);
    }));
  }
}

/** A callback whose arguments are logged, as a promise. */
const noted = (log, name, act) => new Promise((done) => {
  try {
    act((...values) => {
      log(name, ...values);
      done(values);
    });
  } catch (error) {
    log(name, "throws", error);
    done([]);
  }
});
const settled = async (log, name, act) => {
  try {
    const value = await act();
    log(name, value);
    return value;
  } catch (error) {
    log(name, "rejects", error);
    return undefined;
  }
};

const SCENARIOS = {
  "fs with callbacks: what is there": async (at, log) => {
    for (const [name, ...given] of [
      ["readFile", at("a.txt")], ["readFile", at("a.txt"), "utf8"], ["readFile", at("a.txt"), { encoding: "latin1" }],
      ["access", at("a.txt")], ["stat", at("a.txt")], ["stat", at("a.txt"), { bigint: true }], ["lstat", at("dir")],
      ["readdir", at("dir")], ["readdir", at("."), { recursive: true }],
      ["readdir", at("dir"), { withFileTypes: true }],
      ["realpath", at("dir/../a.txt")], ["statfs", at(".")], ["writeFile", at("w.txt"), "written"],
      ["appendFile", at("w.txt"), "more"], ["copyFile", at("w.txt"), at("x.txt")], ["rename", at("x.txt"), at("y.txt")],
      ["chmod", at("y.txt"), 0o600], ["utimes", at("y.txt"), 1, 2], ["lutimes", at("y.txt"), 1, 2],
      ["truncate", at("y.txt"), 3],
      ["readFile", at("y.txt"), "utf8"], ["link", at("y.txt"), at("l.txt")], ["symlink", at("y.txt"), at("s.txt")],
      ["readlink", at("s.txt")], ["lstat", at("s.txt")], ["unlink", at("s.txt")], ["mkdir", at("m")],
      ["mkdir", at("m/n/o"), { recursive: true }], ["mkdir", at("m/n/o"), { recursive: true }], ["rmdir", at("m/n/o")],
      ["rm", at("m"), { recursive: true }], ["rm", at("none"), { force: true }],
      ["cp", at("dir"), at("copied"), { recursive: true }],
      ["readdir", at("copied"), { recursive: true }],
    ]) await noted(log, name, (done) => fs[name](...given, done));
    await noted(log, "exists", (done) => fs.exists(at("a.txt"), done));
    await noted(log, "exists", (done) => fs.exists(at("none"), done));
    await noted(log, "native", (done) => fs.realpath.native(at("dir/../a.txt"), done));
    await noted((name, error, path) => log(name, error, path.length), "mkdtemp",
      (done) => fs.mkdtemp(at("tmp-"), done));
    log(await util.promisify(fs.exists)(at("a.txt")), await util.promisify(fs.readFile)(at("a.txt"), "utf8"));
  },
  "fs with callbacks: errors": async (at, log) => {
    for (const [name, ...given] of [
      ["readFile", at("none")], ["readFile", at("dir")], ["readFile", at("a.txt"), "no-encoding"],
      ["readFile", undefined],
      ["access", at("none")], ["stat", at("none")], ["stat", at("none"), { throwIfNoEntry: false }],
      ["lstat", at("none")],
      ["readdir", at("none")], ["readdir", at("a.txt")], ["realpath", at("none")], ["writeFile", at("none/a"), "x"],
      ["writeFile", at("w"), 5], ["copyFile", at("none"), at("x")], ["rename", at("none"), at("x")],
      ["chmod", at("none"), 0o600],
      ["utimes", at("none"), 1, 2], ["truncate", at("none"), 1], ["link", at("none"), at("x")],
      ["symlink", at("a.txt"), at("dir")],
      ["readlink", at("a.txt")], ["unlink", at("none")], ["unlink", at("dir/none")], ["mkdir", at("dir")],
      ["mkdir", at("none/a")],
      ["rmdir", at("none")], ["rmdir", at("dir")], ["rm", at("none")], ["rm", at("dir")], ["mkdtemp", at("none/x")],
      ["open", at("none")],
      ["open", at("a.txt"), "wx"], ["statfs", at("none")], ["fstat", 987654], ["ftruncate", 987654, 1],
      ["fsync", 987654], ["close", 987654],
    ]) await noted(log, name, (done) => fs[name](...given, done));
    for (const name of ["readFile", "stat", "open", "writeFile", "rename"]) {
      try { fs[name](at("a.txt"), "utf8"); } catch (error) { log(name, error); }
    }
  },
  "fs with callbacks: descriptors": async (at, log) => {
    const [, fd] = await noted(() => {}, "open", (done) => fs.open(at("d.txt"), "w+", done));
    log(typeof fd);
    await noted(log, "write", (done) => fs.write(fd, Buffer.from("0123456789"), done));
    await noted(log, "write", (done) => fs.write(fd, Buffer.from("abc"), 1, 2, 4, done));
    await noted(log, "write", (done) => fs.write(fd, "text", 10, "utf8", done));
    await noted(log, "writev", (done) => fs.writev(fd, [Buffer.from("x"), Buffer.from("yz")], 14, done));
    await noted(log, "read", (done) => fs.read(fd, Buffer.alloc(5), 0, 5, 0, done));
    await noted(log, "read", (done) => fs.read(fd, Buffer.alloc(4), { position: 3, length: 2 }, done));
    await noted(log, "read", (done) => fs.read(fd, { buffer: Buffer.alloc(3), position: 10 }, done));
    await noted((name, error, n, buffer) => log(name, error, n, buffer.length), "read",
      (done) => fs.read(fd, { position: 2 }, done));
    await noted((name, error, n, buffer) => log(name, error, n, buffer.length), "read", (done) => fs.read(fd, done));
    await noted(log, "readv", (done) => fs.readv(fd, [Buffer.alloc(2), Buffer.alloc(3)], 0, done));
    log(await util.promisify(fs.read)(fd, Buffer.alloc(2), 0, 2, 1));
    for (const [name, ...given] of [["fstat"], ["fchmod", 0o600], ["futimes", 1, 2], ["ftruncate", 4], ["fsync"],
      ["fdatasync"]]) {
      await noted(log, name, (done) => fs[name](fd, ...given, done));
    }
    await noted(log, "read", (done) => fs.read(fd, Buffer.alloc(2), 5, 9, 0, done));
    await noted(log, "close", (done) => fs.close(fd, done));
    await noted(log, "read", (done) => fs.read(fd, Buffer.alloc(2), 0, 2, 0, done));
    await noted(log, "write", (done) => fs.write(fd, "x", done));
  },
  "fs.promises": async (at, log) => {
    const { promises } = fs;
    for (const [name, ...given] of [
      ["readFile", at("a.txt")], ["readFile", at("a.txt"), "utf8"], ["readFile", at("none")],
      ["readFile", at("dir")], ["readFile", 5],
      ["access", at("a.txt")], ["access", at("none")], ["stat", at("a.txt")], ["stat", at("none")],
      ["stat", at("none"), { throwIfNoEntry: false }],
      ["lstat", at("dir")], ["readdir", at("dir")], ["readdir", at("."), { recursive: true }],
      ["readdir", at("none")], ["realpath", at("dir/..")],
      ["realpath", at("none")], ["writeFile", at("w"), "written"], ["writeFile", at("w"), 5],
      ["writeFile", at("none/x"), "x"],
      ["appendFile", at("w"), "more"], ["readFile", at("w"), "utf8"], ["copyFile", at("w"), at("x")],
      ["copyFile", at("none"), at("x")],
      ["rename", at("x"), at("y")], ["rename", at("none"), at("y")], ["chmod", at("y"), 0o600],
      ["utimes", at("y"), 1, 2], ["lutimes", at("y"), 1, 2],
      ["truncate", at("y"), 3], ["truncate", at("none")], ["link", at("y"), at("l")], ["symlink", at("y"), at("s")],
      ["readlink", at("s")],
      ["readlink", at("y")], ["unlink", at("s")], ["unlink", at("none")], ["mkdir", at("m")], ["mkdir", at("m")],
      ["mkdir", at("m/n/o"), { recursive: true }],
      ["rmdir", at("m/n/o")], ["rmdir", at("m")], ["rm", at("m")], ["rm", at("m"), { recursive: true }],
      ["rm", at("none")], ["cp", at("dir"), at("c"), { recursive: true }],
      ["readdir", at("c"), { recursive: true }], ["cp", at("none"), at("c2")], ["mkdtemp", at("none/x")],
      ["statfs", at(".")], ["chmod", at("none"), 0],
    ]) await settled(log, name, () => promises[name](...given));
    await settled(log, "pieces", () => promises.writeFile(at("p"), Readable.from(["one", "two"])));
    await settled(log, "pieces", () => promises.writeFile(at("p2"), (function* () { yield "a";
    yield Buffer.from("b"); })()));
    log(await promises.readFile(at("p"), "utf8"), await promises.readFile(at("p2"), "utf8"));
    await settled(log, "aborted", () => promises.readFile(at("a.txt"), { signal: AbortSignal.abort() }));
    const controller = new AbortController();
    const reading = promises.readFile(at("a.txt"), { signal: controller.signal });
    controller.abort();
    await settled(log, "aborted on the way", () => reading);
  },
  "file handles": async (at, log) => {
    const handle = await fs.promises.open(at("h.txt"), "w+");
    log(typeof handle.fd, handle.constructor.name);
    await settled(log, "write", () => handle.write("0123456789"));
    await settled(log, "write", () => handle.write(Buffer.from("abc"), 1, 2, 4));
    await settled(log, "writev", () => handle.writev([Buffer.from("x"), Buffer.from("y")], 10));
    await settled(log, "read", () => handle.read(Buffer.alloc(4), 0, 4, 3));
    await settled(log, "read", () => handle.read(Buffer.alloc(4), { position: 1 }));
    await settled(log, "read", () => handle.read({ buffer: Buffer.alloc(3), position: 0 }));
    await settled((name, { bytesRead, buffer }) => log(name, bytesRead, buffer.length), "read", () => handle.read());
    await settled(log, "readv", () => handle.readv([Buffer.alloc(2)], 2));
    for (const [name, ...given] of [["stat"], ["truncate", 6], ["chmod", 0o600], ["utimes", 1, 2], ["sync"],
      ["datasync"], ["appendFile", "end"]]) {
      await settled(log, name, () => handle[name](...given));
    }
    const { fd } = handle;
    handle.on("close", () => log("close event"));
    await settled(log, "close", () => handle.close());
    await settled(log, "close", () => handle.close());
    log(handle.fd, typeof fd);
    await settled(log, "closed", () => handle.read(Buffer.alloc(1)));
    await settled(log, "open", () => fs.promises.open(at("none")));
    const other = await fs.promises.open(at("h.txt"));
    await settled(log, "readFile", () => other.readFile("utf8"));
    await other.close();
    const lines = await fs.promises.open(at("a.txt"));
    for await (const line of lines.readLines()) log(line);
    const whole = await fs.promises.open(at("a.txt"));
    await settled(log, "readFile of a handle", () => fs.promises.readFile(whole, "utf8"));
    await whole.close();
    const made = await fs.promises.open(at("made"), "w");
    await settled(log, "writeFile", () => made.writeFile("written"));
    await settled(log, "writeFile", () => fs.promises.writeFile(made, " and more"));
    await made.close();
    log(readFileSync(at("made"), "utf8"));
  },
  "streams over files": async (at, log) => {
    const read = (stream) => new Promise((done) => {
      const parts = [];
      for (const name of ["open", "ready", "end", "close"]) stream.on(name, () => log(name));
      stream.on("data", (data) => parts.push(data)).on("error", (error) => log("error", error));
      stream.on("close", () => done(parts));
    });
    log(await read(fs.createReadStream(at("a.txt"), { encoding: "utf8" })));
    log(await read(fs.createReadStream(at("a.txt"), { start: 2, end: 9, highWaterMark: 3 })));
    log(await read(fs.createReadStream(at("none"))));
    const writer = fs.createWriteStream(at("s.txt"));
    for (const name of ["open", "ready", "finish", "close"]) writer.on(name, () => log(name));
    writer.write("one");
    writer.write("two");
    await new Promise((done) => writer.end("three", done));
    log(readFileSync(at("s.txt"), "utf8"), writer.bytesWritten);
    await piped(fs.createReadStream(at("a.txt")), fs.createWriteStream(at("copy")));
    log(readFileSync(at("copy"), "utf8"));
    await noted(log, "pipeline",
      (done) => pipeline(fs.createReadStream(at("none")), fs.createWriteStream(at("c2")), done));
    await new Promise((done) =>
      fs.createWriteStream(at("none/x")).on("error", (error) => log(error)).on("close", done));
    const handle = await fs.promises.open(at("a.txt"));
    log(await read(handle.createReadStream({ encoding: "utf8" })), handle.fd);
    const target = await fs.promises.open(at("t"), "w");
    await new Promise((done) => target.createWriteStream().on("close", done).end("by a handle"));
    log(readFileSync(at("t"), "utf8"), target.fd);
  },
  "crypto": async (at, log) => {
    // OpenSSL keeps some errors for the next function, so this one comes first.
    await noted(log, "sign", (done) => crypto.sign("sha256", Buffer.from("x"), "no key", done));
    for (const [name, ...given] of [
      ["pbkdf2", "secret", "salt", 10, 16, "sha256"], ["pbkdf2", "secret", "salt", 10, 16, "none"],
      ["pbkdf2", "secret", "salt", 0, 16, "sha256"],
      ["pbkdf2", 5, "salt", 1, 1, "sha256"], ["scrypt", "secret", "salt", 16],
      ["scrypt", "secret", "salt", 16, { N: 3 }], ["scrypt", "secret", "salt", 16, { N: 2 ** 20 }],
      ["hkdf", "sha256", "key", "salt", "info", 16], ["hkdf", "none", "key", "salt", "info", 16],
      ["hkdf", "sha256", "key", "salt", "info", 1e9],
      ["checkPrime", 7n], ["checkPrime", 8n, { checks: 2 }], ["checkPrime", "7"], ["randomBytes", -1],
      ["randomInt", 5, 5], ["randomInt", 3.5],
      ["randomFill", "x"], ["generateKey", "none", {}], ["generateKey", "hmac", {}], ["generateKeyPair", "none", {}],
    ]) await noted(log, name, (done) => crypto[name](...given, done));
    await noted((name, error, bytes) => log(name, error, bytes.length), "randomBytes",
      (done) => crypto.randomBytes(7, done));
    await noted((name, error, number) => log(name, error, number >= 3 && number < 9), "randomInt",
      (done) => crypto.randomInt(3, 9, done));
    const into = Buffer.alloc(9);
    await noted((name, error, filled) => log(name, error, filled === into, into.some((byte) => byte > 0)), "randomFill",
      (done) => crypto.randomFill(into, 1, 5, done));
    await noted((name, error, key) => log(name, error, key.type), "generateKey",
      (done) => crypto.generateKey("hmac", { length: 64 }, done));
    await noted((name, error, prime) => log(name, error, prime.byteLength), "generatePrime",
      (done) => crypto.generatePrime(16, done));
    const ofPair = (name, error, one, two) => log(name, error, one.type, two.type);
    const [, publicKey, privateKey] = await noted(ofPair, "generateKeyPair",
      (done) => crypto.generateKeyPair("ed25519", {}, done));
    const [, signature] = await noted((name, error, signed) => log(name, error, signed.length), "sign",
      (done) => crypto.sign(null, Buffer.from("x"), privateKey, done));
    await noted(log, "verify", (done) => crypto.verify(null, Buffer.from("x"), publicKey, signature, done));
    await noted(log, "verify", (done) => crypto.verify(null, Buffer.from("y"), publicKey, signature, done));
    log(Object.keys(await util.promisify(crypto.generateKeyPair)("ed25519", {})),
      (await util.promisify(crypto.randomBytes)(3)).length);
    try { crypto.pbkdf2("a", "b", 1, 1, "sha256"); } catch (error) { log(error); }
  },
  "WebAssembly": async (at, log) => {
    const bytes = new Uint8Array([0, 97, 115, 109, 1, 0, 0, 0]);
    const importing = new Uint8Array([...bytes, 1, 4, 1, 96, 0, 0, 2, 7, 1, 1, 109, 1, 102, 0, 0]);
    log(Object.keys(await WebAssembly.instantiate(bytes)),
      (await WebAssembly.compile(bytes)) instanceof WebAssembly.Module);
    log((await WebAssembly.instantiate(new WebAssembly.Module(bytes))) instanceof WebAssembly.Instance);
    const acts = [() => WebAssembly.compile(new Uint8Array([1, 2])),
      () => WebAssembly.instantiate(new Uint8Array([1, 2])), () => WebAssembly.compile(5),
      () => WebAssembly.instantiate(importing, {}), () => WebAssembly.instantiate(importing, { m: { f: 1 } }),
      () => WebAssembly.instantiate(importing),
      () => WebAssembly.instantiate(importing, { m: { f() {} } }).then((made) => Object.keys(made))];
    for (const act of acts) await settled(log, "wasm", act);
  },
  "AsyncLocalStorage holds, and callbacks come later": async (at, log) => {
    const storage = new AsyncLocalStorage();
    await storage.run("store", async () => {
      let later = false;
      const reading = new Promise((done) => fs.readFile(at("a.txt"), () => { log(storage.getStore(), later); done();
      }));
      later = true;
      await reading;
      await new Promise((done) => crypto.pbkdf2("a", "b", 1, 1, "sha1", () => { log(storage.getStore()); done(); }));
      await fs.promises.stat(at("a.txt"));
      log(storage.getStore());
    });
  },
};

/** With what later versions of node have. */
const LATER = {
  "crypto: argon2 and keys in capsules": async (at, log) => {
    const given = { message: "secret", nonce: Buffer.alloc(16), parallelism: 1, tagLength: 16, memory: 64, passes: 1 };
    await noted(log, "argon2", (done) => crypto.argon2("argon2id", given, done));
    await noted(log, "argon2", (done) => crypto.argon2("none", given, done));
    const { publicKey, privateKey } = crypto.generateKeyPairSync("x25519");
    const [, { sharedKey, ciphertext }] = await noted((name, error) => log(name, error), "encapsulate",
      (done) => crypto.encapsulate(publicKey, done));
    await noted((name, error, key) => log(name, error, key.equals(sharedKey)), "decapsulate",
      (done) => crypto.decapsulate(privateKey, ciphertext, done));
    await noted(log, "decapsulate", (done) => crypto.decapsulate(privateKey, Buffer.from("x"), done));
  },
  "fs.glob": async (at, log) => {
    const sorted = (name, error, found) => log(name, error, [...found ?? []].sort());
    await noted(sorted, "glob", (done) => fs.glob("**/*.txt", { cwd: at(".") }, done));
    await noted(log, "glob", (done) => fs.glob("none*", { cwd: at(".") }, done));
    const found = [];
    for await (const each of fs.promises.glob("dir/*", { cwd: at(".") })) found.push(each);
    log(found.sort());
    try { fs.glob("*"); } catch (error) { log(error); }
  },
};

if ("argon2" in crypto) Object.assign(SCENARIOS, LATER);

for (const [name, scenario] of Object.entries(SCENARIOS)) {
  test(`as in node: ${name}`, async () => {
    playing = false;
    const real = await logOf(scenario, realLoop);
    assert.ok(real.length > 1, "the scenario logs nothing");
    for (let time = 0; time < 2; time += 1) {
      [playing, tasks, asked.length] = [true, [], 0];
      const own = await logOf(scenario, taskLoop).finally(() => { playing = false; });
      assert.ok(asked.length > 0, "no twin was called");
      assert.deepEqual(own, real);
    }
  });
}
