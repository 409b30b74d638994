// The table of what a program may use of node, and what becomes of it.

import assert from "node:assert/strict";
import Module, { createRequire } from "node:module";
import { test } from "node:test";
import { fileURLToPath } from "node:url";
import { LATER, isSince } from "../../lib/processes/node-versions.mjs";
import { GLOBALS, METHODS, MODULES, SCHEME_MODULES } from "../../lib/program/node/node-api-table.mjs";
import { apiPolicyOf, globalPolicyOf, refuseRest, unknownNames } from "../../lib/program/node/node-api-policy.mjs";
import { jsonOf, nodeNow } from "../helpers/common.mjs";
import { withShell } from "../helpers/needs.mjs";
import { whereNodeHasIt } from "../helpers/where-node-has-it.mjs";

const require = createRequire(import.meta.url);
const KINDS = ["simulated", "harmless", "real", "refused"];
const words = (text) => text.split(/\s+/).filter((word) => word !== "");

test("node has no module, export or global that the tables don't know", () => {
  assert.deepEqual(unknownNames(), []);
});

/** The names of a version, as paths from an object that has all modules and globals. */
function namesOf({ modules, schemes, globals, methods }) {
  const ofModules = Object.entries({ ...modules, ...schemes }).flatMap(([id, row]) =>
    Object.values(row).flatMap(words).map((name) => [id, name]));
  const ofGlobals = Object.values(globals).flatMap(words).map((name) => ["globalThis", name]);
  const ofMethods = Object.entries(methods).flatMap(([path, names]) => words(names).map((name) => [path, name]));
  return { ofModules, others: [...ofGlobals, ...ofMethods] };
}

for (const version of LATER) {
  test(`node has what the table has from version ${version.from} on, and no node before it has any of that`, () => {
    const { ofModules, others } = namesOf(version);
    const hasModule = (id) => Module.isBuiltin(id);
    const owner = (path) => path.split(".").reduce((from, name) => from?.[name], globalThis);
    const isThere = ([id, name]) => (hasModule(id) ? name in require(id) : name in (owner(id) ?? {}));
    const wrong = [...ofModules, ...others].filter((each) => isThere(each) !== isSince(version.from));
    assert.deepEqual(wrong.map((each) => each.join(".")), []);
    assert.ok(ofModules.length > 30 && others.length > 10);
  });
}

whereNodeHasIt(isSince(24))("what only later versions have is refused by its name", () => {
  const found = inProcess(`
    console.log(JSON.stringify([
      by(() => performance.eventLoopUtilization()), by(() => require("perf_hooks").eventLoopUtilization())]));`);
  assert.deepEqual(found, ["Performance.eventLoopUtilization", "Performance.eventLoopUtilization"]);
});

test("no name is of two kinds, and each kind is one of four", () => {
  for (const [id, row] of [...Object.entries(MODULES), ...Object.entries(SCHEME_MODULES), ["globals", GLOBALS]]) {
    if (typeof row === "string") {
      assert.ok(KINDS.includes(row), id);
      continue;
    }
    assert.ok(Object.keys(row).every((kind) => KINDS.includes(kind)), id);
    const all = Object.values(row).flatMap(words);
    assert.deepEqual(all.filter((name, at) => all.indexOf(name) !== at), [], id);
  }
});

test("a name that is new is reported: in a module, as a module, as a global", () => {
  const { builtinModules } = Module;
  const fs = require("fs");
  fs.newInFs = () => {};
  globalThis.newGlobal = 1;
  Module.builtinModules = [...builtinModules, "new_module"];
  try {
    assert.deepEqual(unknownNames(), ["fs.newInFs", "new_module", "newGlobal"]);
  } finally {
    delete fs.newInFs;
    delete globalThis.newGlobal;
    Module.builtinModules = builtinModules;
  }
});

test("kinds are found with and without node:", () => {
  assert.equal(apiPolicyOf("net", "connect"), "real");
  assert.equal(apiPolicyOf("node:net", "connect"), "real");
  assert.equal(apiPolicyOf("cluster", "fork"), "refused");
  assert.equal(apiPolicyOf("node:cluster", "fork"), "refused");
  assert.equal(apiPolicyOf("node:net", "isIP"), "harmless");
  assert.equal(apiPolicyOf("fs", "readFile"), "simulated");
  assert.equal(apiPolicyOf("child_process", "spawn"), "real");
  assert.equal(apiPolicyOf("inspector", "open"), "refused");
  assert.equal(apiPolicyOf("node:test", "test"), "simulated");
  assert.equal(apiPolicyOf("test", "test"), undefined);
  assert.equal(apiPolicyOf("fs", "nothing"), undefined);
  assert.equal(globalPolicyOf("fetch"), "real");
  assert.equal(globalPolicyOf("WebSocket"), "refused");
  assert.equal(globalPolicyOf("nothing"), undefined);
});

/** Runs code in a process of its own in which the rest is refused; `used` has the names of what the machine answers. */
function inProcess(code) {
  const policy = new URL("../../lib/program/node/node-api-policy.mjs", import.meta.url).href;
  const table = new URL("../../lib/program/node/node-api-table.mjs", import.meta.url).href;
  const all = `
    import { apiPolicyOf, globalPolicyOf, refuseRest } from ${JSON.stringify(policy)};
    import Module, { createRequire } from "node:module";
    import { METHODS } from ${JSON.stringify(table)};
    const require = createRequire(import.meta.url); const used = []; let playing = true;
    class Refused extends Error {}
    const by = (act) => { try { act(); return "did";
    } catch (error) { return error instanceof Refused ? error.message : String(error); } };
    void [process.stdin, process.stdout, process.stderr]; // Made by node of sockets, when they are asked for first.
    const net = require("net"); const { Socket } = net; const socket = new Socket();
    refuseRest({
      refuse: (name) => { throw new Refused(name); }, used: (name) => used.push(name), isPlaying: () => playing,
    });
    ${code}`;
  const options = { timeout: 60_000, cwd: fileURLToPath(new URL("..", import.meta.url)) };
  return jsonOf(nodeNow(["--no-warnings", "--input-type=module", "--eval", all], options));
}

test("all that is refused calls `refuse` with its name, by require, node: and getBuiltinModule", () => {
  const found = inProcess(`
    const early = by(() => process.getBuiltinModule("node:v8").takeCoverage());
    const ofMembers = by(() => require("fs").promises.watch());
    // What several modules export is refused by one of its names.
    const names = new Map();
    const see = (owner, name, shown) => {
      if (typeof owner[name] !== "function") return;
      names.set(owner[name], [...(names.get(owner[name]) ?? []), shown]);
    };
    for (const id of [...Module.builtinModules, "node:test"].filter((each) => each !== "domain")) {
      const exports = require(id);
      for (const name of Object.getOwnPropertyNames(exports)) {
        if (["length", "name", "prototype", "default"].includes(name) || apiPolicyOf(id, name) !== "refused") continue;
        const descriptor = Object.getOwnPropertyDescriptor(exports, name);
        if ("value" in descriptor) see(exports, name, id.replace("node:", "") + "." + name);
      }
    }
    for (const [path, list] of Object.entries(METHODS)) {
      const owner = path.split(".").reduce((from, name) => from?.[name], globalThis);
      const owned = path.replace(/(.constructor)?.prototype$/, "");
      for (const name of list.split(/\\s+/)) if (owner?.[name]) see(owner, name, owned + "." + name);
    }
    const globals = Object.getOwnPropertyNames(globalThis).filter((name) => globalPolicyOf(name) === "refused");
    for (const name of globals) see(globalThis, name, name);
    const wrong = [...names].flatMap(([value, shown]) => {
      const called = by(() => value()), made = by(() => new value());
      const isMade = shown.includes(made) || made === "TypeError: value is not a constructor";
      return shown.includes(called) && isMade ? [] : [[shown, called, made]];
    });
    console.log(JSON.stringify([wrong, names.size > 60 || names.size, early,
      by(() => require("node:cluster").fork()), by(() => new PerformanceObserver()),
      by(() => crypto.subtle.generateKey()),
      by(() => WebAssembly.compileStreaming()), by(() => process.umask(0)), by(() => typeof process.umask()),
      by(() => require("inspector").console.log(1)), by(() => require("tty").WriteStream(1)),
      by(() => require("domain")), by(() => require("node:domain")), ofMembers,
      PerformanceObserver === require("perf_hooks").PerformanceObserver]));`);
  assert.deepEqual(found, [[], true, "v8.takeCoverage", "cluster.fork", "PerformanceObserver",
    "SubtleCrypto.generateKey", "WebAssembly.compileStreaming", "process.umask", "did", "inspector.console.log",
    "tty.WriteStream", "domain", "domain", "fs/promises.watch", true]);
});

test("functions that the machine answers are node's own, and noted if the program calls them itself", withShell, () => {
  const found = inProcess(`
    const { Resolver } = require("dns").promises; new Resolver();
    const server = require("http").createServer(); server.listen(0); server.close();
    require("dgram").createSocket("udp4").close(); require("node:tls").createServer().close();
    new (require("net").Server)(); require("http2").createServer(); require("https").createServer();
    playing = false; require("net").createServer(); playing = true;
    const text = require("child_process").execSync("echo text").toString();
    const failed = await fetch("http://127.0.0.1:1").catch((error) => error.message);
    console.log(JSON.stringify([used, text, failed]));`);
  assert.deepEqual(found, [["dns/promises.Resolver", "http.createServer", "dgram.createSocket", "tls.createServer",
    "net.Server", "http2.createServer", "https.createServer", "child_process.execSync", "fetch"], "text\n",
    "fetch failed"]);
});

test("replaced functions keep their type, name, length and instances, and classes that extend them", () => {
  const found = inProcess(`
    const { Socket: Stand } = require("net"); class Own extends PerformanceObserver {} class OwnSocket extends Stand {}
    console.log(JSON.stringify([Stand === Socket, socket instanceof Stand, socket.constructor === Socket,
      typeof Stand, Stand.name,
      Stand.length === Socket.length, Stand.prototype === Socket.prototype, by(() => new Own()),
        by(() => PerformanceObserver()), typeof fetch, new OwnSocket() instanceof Socket, used,
      require("child_process").spawn.name]));`);
  assert.deepEqual(found, [false, true, true, "function", "Socket", true, true, "PerformanceObserver",
    "PerformanceObserver", "function", true, ["net.Socket"], "spawn"]);
});

test("nothing is refused until the program plays, and what is harmless works", () => {
  const found = inProcess(`
    playing = false;
    const before = by(() => new (require("net").Socket)()); const { monitorEventLoopDelay } = require("perf_hooks");
    const delay = by(() => monitorEventLoopDelay());
    playing = true;
    const again = by(() => monitorEventLoopDelay());
    const { EventEmitter } = require("events"); const { Readable } = require("stream");
    console.log(JSON.stringify([before, delay, again, by(() => new EventEmitter().emit("x")),
      by(() => Readable.from([1])),
      by(() => require("zlib").gunzipSync(require("zlib").gzipSync("text"))), by(() => new (require("http").Agent)()),
      by(() => require("readline").createInterface({ input: Readable.from([]) }).close()),
        by(() => require("tty").isatty(1)),
      by(() => require("util").inspect(process)), by(() => new URL("http://a")), by(() => new Headers()),
        by(() => new Response("x"))]));`);
  assert.deepEqual(found, ["did", "did", "perf_hooks.monitorEventLoopDelay", ...Array(10).fill("did")]);
});

test("each method that is refused is there", () => {
  for (const [path, names] of Object.entries(METHODS)) {
    const owner = path.split(".").reduce((from, name) => from?.[name], globalThis);
    const isLater = (name) =>
      LATER.some(({ from, methods }) => !isSince(from) && words(methods[path] ?? "").includes(name));
    for (const name of words(names)) {
      assert.equal(typeof owner?.[name], isLater(name) ? "undefined" : "function", `${path}.${name}`);
    }
  }
  assert.equal(typeof refuseRest, "function");
});
