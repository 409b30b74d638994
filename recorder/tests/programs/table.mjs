// Whole programs with known answers. What is wrong with a program is the first line of its file. The answers come from
// thought and from node itself, and never from the recorder.

import { readFileSync } from "node:fs";

/**
 * A line of code: the name of its file, and a text that no other line of that file has; or a function in WebAssembly.
 * @typedef {[file: string, text: string]} Line
 *
 * How a wrong program fails, and what the finding shows of it: each of the lines of code, and the words.
 * @typedef {object} Finding
 * @property {"race" | "deadlock" | "stuck" | "failed"} ending
 * @property {Line[]} at
 * @property {RegExp} [says]
 *
 * @typedef {object} Program
 * @property {string} main its file, from this folder; the name is the same without its ending
 * @property {string} name
 * @property {boolean} right
 * @property {Finding[]} findings of a wrong program: each failing run is one of them
 * @property {boolean} [isRare] whether at most one run in fifty fails if each thread that can go on is as likely
 * @property {boolean} [isOfTime] whether it fails only if a time is up while other threads can go on
 * @property {string[]} [options] that the recorder needs for it
 * @property {boolean} [isEndless] whether it prints "ready" and ends only by Ctrl-C
 * @property {boolean} [isWeb] whether it is for browsers
 * @property {RegExp} [late] what it says in node if the machine is so slow that a limit of time is met
 * @property {string} [notYet] what it needs that the recorder doesn't simulate yet, as the recorder names it
 */

/** @param {Line} one @param {Line} other @returns {Finding} unordered accesses of two lines */
const race = (one, other) => ({ ending: "race", at: [one, other] });

/** @param {Line[]} at the lines at which threads sleep @returns {Finding} */
const deadlock = (...at) => ({ ending: "deadlock", at });

/** @param {Line[]} at the lines that keep threads alive @returns {Finding} */
const stuck = (...at) => ({ ending: "stuck", at });

/** @param {RegExp} says what the message or the exit code must match @param {Line[]} at @returns {Finding} */
const failed = (says, ...at) => ({ ending: "failed", at, says });

/** @type {(main: string, more?: object) => Omit<Program, "name">} */
const right = (main, more = {}) => ({ main, right: true, findings: [], ...more });

/** @type {(main: string, ...findings: Finding[]) => Omit<Program, "name">} */
const wrong = (main, ...findings) => ({ main, right: false, findings });

/** @type {(main: string, ...findings: Finding[]) => Omit<Program, "name">} */
const rare = (main, ...findings) => ({ ...wrong(main, ...findings), isRare: true });

/** @type {(main: string, ...findings: Finding[]) => Omit<Program, "name">} */
const ofTime = (main, ...findings) => ({ ...wrong(main, ...findings), isOfTime: true });

/** @type {(...programs: Omit<Program, "name">[]) => Omit<Program, "name">[]} */
const web = (...programs) => programs.map((program) => ({ ...program, isWeb: true }));

/** @type {(what: string, programs: Omit<Program, "name">[]) => Omit<Program, "name">[]} */
const notYet = (what, programs) => programs.map((program) => ({ ...program, notYet: what }));

const THROWS = "throw new Error";

/** In place of a file: the text is the name of a function in WebAssembly. */
const WASM = "wasm";
const COUNTS = /** @type {Line} */ (["threads.mjs", "words[2] += 1;"]);

const ALL = [
  // Tests of node:test that pass: the first program, in threads in which no other has run.
  right("node-test/right.mjs"),

  // Handing over by wait, by message, by waitAsync.
  right("hand-over/right.mjs"),
  wrong("hand-over/too-soon.mjs",
    race(["too-soon.mjs", "const last"], ["too-soon-worker.mjs", "letters[4] = 111"]),
    failed(/the last letter is 0/, ["too-soon.mjs", THROWS])),
  wrong("hand-over/waits-elsewhere.mjs", deadlock(["waits-elsewhere.mjs", "Atomics.wait(words, 1, 0)"])),
  right("message/right.mjs"),
  wrong("message/too-soon.mjs", race(["too-soon.mjs", "data[0] = 7"], ["worker.mjs", "data[1] = data[0] * data[0]"])),
  wrong("message/two-talks.mjs", race(["two-talks.mjs", "const found"], ["writes.mjs", "byte[0] = 1"])),
  right("message/after-exit.mjs"),
  wrong("message/before-exit.mjs",
    race(["before-exit.mjs", "const last"], ["fills.mjs", "data[at] = at / 2"]),
    failed(/the last number is 0/, ["before-exit.mjs", THROWS])),
  right("wait-async/right.mjs"),
  right("wait-async/one-by-one.mjs"),
  wrong("wait-async/stale.mjs", failed(/\b13\b/)),
  wrong("wait-async/two-take-one.mjs", failed(/took a piece that isn't there/, ["two-take-one.mjs", THROWS])),
  rare("wait-async/pulse.mjs", failed(/notified, and the word is 0/, ["pulse.mjs", THROWS])),

  // Main blocks, and the worker is asynchronous.
  right("calls/right.mjs"),
  right("calls/timer.mjs"),
  rare("calls/late-notify.mjs", failed(/woken without an answer/, ["calls.mjs", "woken without an answer"])),
  rare("calls/late-answer.mjs", failed(/woken without an answer/, ["calls.mjs", "woken without an answer"])),
  wrong("calls/notify-first.mjs", failed(/woken without an answer/, ["calls.mjs", "woken without an answer"])),
  right("bridge/right.mjs"),
  wrong("bridge/reads.mjs", failed(/woken without an answer/, ["bridge.mjs", "woken without an answer"])),
  wrong("bridge/looks-first.mjs", failed(/woken without an answer/, ["bridge.mjs", "woken without an answer"])),
  wrong("bridge/timed.mjs", failed(/woken without an answer/, ["bridge.mjs", "woken without an answer"])),
  ofTime("calls/time-limit.mjs", failed(/is answered by/, ["time-limit.mjs", THROWS])),

  // Pools, and what is remembered across an await.
  right("pool/right.mjs"),
  wrong("pool/await-between.mjs", failed(/resolve/, ["pool.mjs", "const { resolve }"])),
  wrong("pool/first-come.mjs", failed(/answers 4,1/, ["first-come.mjs", THROWS])),
  right("account/right.mjs"),
  wrong("account/read-await-write.mjs", failed(/the balance is [2-5]/, ["threads.mjs", THROWS])),
  right("account/shared-add.mjs"),
  wrong("account/shared-sum.mjs", failed(/the sum is 1/, ["adders.mjs", THROWS])),
  right("retry/right.mjs"),
  rare("retry/pays-twice.mjs", failed(/the balance is [3-9]0/, ["threads.mjs", THROWS])),
  right("context/right.mjs"),
  wrong("context/one-for-all.mjs", failed(/answers 2 10,2 20/, ["requests.mjs", THROWS])),

  // Locks, barriers, queues and lists in shared memory.
  right("barrier/right.mjs"),
  wrong("barrier/round-late.mjs", deadlock(["round-late.mjs", "Atomics.wait("])),
  wrong("barrier/notify-one.mjs", deadlock(["generations.mjs", "Atomics.wait("])),
  right("queue/right.mjs"),
  wrong("queue/wakes-wrong-kind.mjs", deadlock(["queue.mjs", "Atomics.wait(this.words, FULL"])),
  right("ring/right.mjs"),
  rare("ring/overflows.mjs", failed(/found \d in place of \d/, ["threads.mjs", THROWS])),
  rare("ring/silence.mjs", failed(/the sum is [0-5]/, ["silence.mjs", THROWS])),
  right("mutex/right.mjs"),
  wrong("mutex/forgets-sleepers.mjs", deadlock(["forgets-sleepers.mjs", "Atomics.wait("])),
  wrong("mutex/test-then-set.mjs", race(COUNTS, COUNTS), failed(/counted [1-5]/, ["threads.mjs", THROWS])),
  rare("mutex/gives-up.mjs", failed(/counted [1-5]/, ["gives-up.mjs", THROWS])),
  right("semaphore/right.mjs"),
  wrong("semaphore/notifies-at-none.mjs", deadlock(["permit.mjs", "Atomics.wait("])),
  right("lock-order/right.mjs"),
  wrong("lock-order/crossed.mjs", deadlock(["threads.mjs", "Atomics.wait("])),
  right("free-list/right.mjs"),
  rare("free-list/comes-back.mjs",
    failed(/the free nodes are/, ["threads.mjs", THROWS]), failed(/no node is free/, ["list.mjs", THROWS])),
  rare("free-list/wraps.mjs",
    failed(/the free nodes are/, ["wraps.mjs", THROWS]), failed(/no node is free/, ["list.mjs", THROWS])),
  right("version/right.mjs"),
  rare("version/wraps.mjs", failed(/a torn pair/, ["threads.mjs", THROWS])),
  right("buffers/right.mjs"),
  rare("buffers/laps-reader.mjs", failed(/a torn pair/, ["threads.mjs", THROWS])),

  // Many calls on words of the thread's own between those that matter.
  right("amid-work/right.mjs"),
  wrong("amid-work/lost-wake-up.mjs", deadlock(["lost-wake-up.mjs", "Atomics.wait("])),
  rare("amid-work/lock-order.mjs", deadlock(["lock-order.mjs", "Atomics.wait("])),
  wrong("amid-work/two-steps.mjs", failed(/counted 1/, ["two-steps.mjs", THROWS])),

  // More memory than a script can have: many blocks, and a large one.
  right("shards/right.mjs"),
  wrong("shards/wrong-lock.mjs",
    race(["threads.mjs", "shards[at][COUNT] += 1"], ["threads.mjs", "shards[at][COUNT] += 1"]),
    failed(/counted (?:[12]\d|3[01])$/m, ["threads.mjs", THROWS])),
  right("image/right.mjs"),
  wrong("image/overlaps.mjs",
    race(["threads.mjs", "pixels.fill("], ["threads.mjs", "pixels.fill("]),
    failed(/the colours are 1 and 1/, ["threads.mjs", THROWS])),

  // Timers and deadlines.
  right("deadline/right.mjs"),
  right("deadline/interval.mjs"),
  right("deadline/race-of-promises.mjs"),
  ofTime("deadline/ignored.mjs",
    race(["ignored.mjs", "const answer"], ["worker.mjs", "words[1] = 42"]),
    failed(/the answer is 0/, ["ignored.mjs", THROWS])),
  ofTime("deadline/sleeps.mjs", failed(/hasn't answered after 50 ms/, ["sleeps.mjs", THROWS])),
  rare("deadline/turns.mjs", failed(/no answer after eight turns/, ["turns.mjs", THROWS])),

  // Limits of time that are met only if a thread does nothing for so long.
  right("watchdog/right.mjs", { late: /no answer in 500 ms/ }),
  right("watchdog/ticks.mjs", { late: /answers in 200 ms/ }),
  wrong("watchdog/two-questions.mjs", failed(/no answer to [34] in 500 ms/, ["two-questions.mjs", "throw new Error"])),
  right("heartbeat/right.mjs"),
  wrong("heartbeat/first-only.mjs", failed(/no beat for [45]\d{3}/, ["looks.mjs", THROWS])),
  right("interval/right.mjs"),
  right("interval/counts.mjs"),
  wrong("interval/loses-wake-up.mjs",
    stuck(["loses-wake-up.mjs", "const beats"], ["loses-wake-up.mjs", "Atomics.waitAsync"])),
  right("cache/right.mjs"),
  wrong("cache/asks-twice.mjs", failed(/the answer to b is number [23], for [ab]/, ["asks-twice.mjs", THROWS])),

  // How threads end: terminate, rejections, errors, exit codes, unref.
  right("terminate/right.mjs"),
  wrong("terminate/in-the-middle.mjs", deadlock(["lock.mjs", "Atomics.wait("])),
  wrong("terminate/last-answer.mjs", failed(/1 answers have come/, ["last-answer.mjs", THROWS])),
  right("rejection/handled.mjs"),
  wrong("rejection/unhandled.mjs", failed(/wrong/, ["ask.mjs", "reject(new Error(refused))"])),
  wrong("rejection/in-worker.mjs", failed(/no ticket is left/, ["in-worker.mjs", "throw new RangeError"])),
  right("errors/listened.mjs"),
  wrong("errors/no-listener.mjs", failed(/the word isn't set/, ["needs-word.mjs", THROWS])),
  wrong("errors/dies.mjs",
    { ending: "deadlock", at: [["dies.mjs", "Atomics.wait("], ["throws.mjs", "throw new"]],
      says: /ended: threw Error: there is no table/ }),
  wrong("exits/in-catch.mjs",
    { ending: "failed", at: [["in-catch.mjs", "process.exit(1)"], ["in-catch.mjs", THROWS]],
      says: /wrote to standard error:\nError: the sum is [12]/ }),
  right("exits/right.mjs"),
  wrong("exits/first-exits.mjs", failed(/\b5\b/)),
  right("unref/right.mjs"),
  wrong("unref/too-soon.mjs", failed(/\b1\b/)),

  // Where workers come from, and what they import.
  right("commonjs/right.cjs"),
  wrong("commonjs/misses.cjs", deadlock(["worker.cjs", "Atomics.wait(words, 1, 0)"])),
  right("sources/eval.mjs"),
  wrong("sources/eval-misses.mjs", deadlock(["eval-misses.mjs", "Atomics.wait("])),
  right("sources/imported.mjs"),
  right("nested/right.mjs"),
  wrong("nested/exits-early.mjs", failed(/[23] of 4 are counted/, ["exits-early.mjs", THROWS])),
  right("packages/right.mjs"),
  wrong("packages/misses.mjs", deadlock(["gate.mjs", "Atomics.wait(this.words, 0, 0, Infinity)"])),

  // Ports, channels, streams, events.
  right("broadcast/right.mjs"),
  wrong("broadcast/too-early.mjs", stuck(["worker.mjs", "news.onmessage ="])),
  right("channels/right.mjs"),
  right("channels/in-order.mjs"),
  wrong("channels/two-ports.mjs", failed(/the factor is undefined/, ["two-ports.mjs", THROWS])),
  rare("channels/long-way.mjs", failed(/first came: the long way/, ["long-way.mjs", THROWS])),
  right("streams/right.mjs"),
  wrong("streams/ends-early.mjs",
    failed(/the sum is [0-5]/, ["ends-early.mjs", THROWS]),
    failed(/push\(\) after EOF/, ["ends-early.mjs", "numbers.push(number)"])),
  right("once/right.mjs"),
  wrong("once/late.mjs", failed(/\b13\b/)),
  right("once/reads-between.mjs"),
  right("list/right.mjs"),
  wrong("list/too-long.mjs", failed(/\b13\b/)),
  right("iterator/right.mjs"),
  right("iterator/replaced.mjs"),
  right("iterator/inherited.mjs"),

  // Standard streams of workers.
  right("stdio/right.mjs"),
  wrong("stdio/before-end.mjs", failed(/[0-2] lines for 3 numbers/, ["before-end.mjs", THROWS])),
  wrong("stdio/never-ends.mjs", stuck(["never-ends.mjs", "new Worker("])),
  right("stdio/pool.mjs"),
  wrong("stdio/as-they-come.mjs", failed(/the numbers came as/, ["as-they-come.mjs", THROWS])),
  right("stdio/piped.mjs"),
  wrong("stdio/first-ends.mjs",
    failed(/the sum is [69]?/, ["first-ends.mjs", THROWS]),
    stuck(["first-ends.mjs", "await text("], ["sums.mjs", "for await"])),

  // Tests of node:test.
  wrong("node-test/lost-wake-up.mjs", deadlock(["lost-wake-up.mjs", "Atomics.wait("])),
  wrong("node-test/too-soon.mjs", failed(/failed the test "counts two"/, ["too-soon.mjs", "assert.equal("])),
  wrong("node-test/one-for-all.mjs", failed(/failed the test "doubles [23]"/, ["one-for-all.mjs", "assert.equal("])),

  // Memory that grows, and WebAssembly's.
  right("growable/right.mjs"),
  wrong("growable/published-first.mjs", failed(/RangeError/, ["published-first.mjs", "const last"])),
  right("wasm-memory/right.mjs"),
  wrong("wasm-memory/lost-update.mjs", failed(/counted [1-5]/, ["counters.mjs", THROWS])),
  right("wasm-memory/grows.mjs"),
  wrong("wasm-memory/grown-early.mjs",
    race(["grown-early.mjs", "const last"], ["grown-early.mjs", "[words.length] = 70"]),
    failed(/it is 0/, ["grown-early.mjs", THROWS])),
  ...notYet("a WebAssembly.Memory that has no byte yet", [right("wasm-memory/without-page.mjs")]),
  right("wasm/right.mjs"),
  right("wasm/wakes-all.mjs"),
  wrong("wasm/sleeps-too-long.mjs", deadlock([WASM, "lock"]), deadlock([WASM, "lock"], [WASM, "lock"])),
  wrong("wasm/without-lock.mjs", race([WASM, "count"], [WASM, "count"])),

  // For browsers.
  ...web(
    right("web/right.mjs"),
    wrong("web/loses-wake-up.mjs", deadlock(["looks-and-sleeps.mjs", "Atomics.wait("])),
    right("web/pool-right.mjs"),
    wrong("web/pool-without-lock.mjs",
      race(["adds-at-once.mjs", "words[0] += 1"], ["adds-at-once.mjs", "words[0] += 1"]),
      failed(/counted 1/, ["pool-without-lock.mjs", THROWS])),
    wrong("web/listens-late.mjs", stuck(["listens-late.mjs", "new Worker("])),
    wrong("web/nobody-listens.mjs", failed(/there is no factor/, ["multiplies.mjs", THROWS])),
    right("web/locks-right.mjs"),
    wrong("web/locks-two-names.mjs", failed(/counted 1/, ["locks-threads.mjs", THROWS])),
    wrong("web/locks-not-awaited.mjs", failed(/counted [01]/, ["locks-threads.mjs", THROWS])),
    wrong("web/locks-shared.mjs", failed(/counted 1/, ["locks-threads.mjs", THROWS])),
    wrong("web/locks-any-case.mjs", failed(/counted 1/, ["locks-threads.mjs", THROWS])),
    wrong("web/locks-steals.mjs", failed(/counted 1/, ["locks-threads.mjs", THROWS])),
    right("web/locks-ordered.mjs"),
    wrong("web/locks-crossed.mjs", {
      ending: "stuck", at: [["locks-crossed-worker.mjs", "request(second"]], says: /awaits the lock "[ab]"/,
    }),
    right("web/locks-readers.mjs"),
    wrong("web/locks-writer-shares.mjs",
      race(["locks-table.mjs", "if (writes)"], ["locks-table.mjs", "else if (table.some"])),
  ),

  // What never ends.
  wrong("stuck/never-closes.mjs", stuck(["never-closes.mjs", "new MessageChannel().port1.on"])),
  wrong("stuck/forgets-worker.mjs", stuck(["listens.mjs", 'parentPort.on("message"'])),
  right("stuck/server.mjs", { options: ["--stuck", "allow"], isEndless: true }),
];

/** @type {Program[]} */
export const PROGRAMS = ALL.map((program) => ({ ...program, name: program.main.replace(/\.[cm]js$/, "") }));

const FOLDER = new URL("./", import.meta.url);

/** @param {Program} program @returns {URL} */
export const urlOf = ({ main }) => new URL(main, FOLDER);

/**
 * Where the lines of a finding are.
 * @param {Program} program
 * @param {Finding} finding
 * @returns {string[]} the name of each file with the number of the line, as in `worker.mjs:7`
 */
export function placesOf(program, { at }) {
  return at.map(([file, text]) => {
    if (file === WASM) return `wasm:${text}:1`;
    const folder = file === "gate.mjs" ? "./node_modules/small-gate/" : "./";
    const lines = readFileSync(new URL(folder + file, urlOf(program)), "utf8").split("\n");
    const numbers = lines.flatMap((line, index) => (line.includes(text) ? [index + 1] : []));
    if (numbers.length !== 1) throw new Error(`${file} has ${numbers.length} lines with ${text}`);
    return `${file}:${numbers[0]}`;
  });
}
