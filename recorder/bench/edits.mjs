// The wrong programs that are made of the pieces by one edit each: its name, the piece, its kind, the text that is
// replaced, and the new text. White space in the old text fits any white space of the piece, and the old text must
// occur there exactly once.

import { readFileSync } from "node:fs";

/**
 * @typedef {object} Edit
 * @property {string} name of the wrong program
 * @property {string} piece the right program that it is made of
 * @property {string} kind what kind of mistake it is
 * @property {string} from the text that is replaced
 * @property {string} to the new text
 */

/** Edits that leave the program right. */
export const RIGHT = "right in spite of the edit";
/** A wake-up is lost, but the agent waits for it with a time, so that no run fails. */
export const HIDDEN = "timed wait hides a lost notify";
/** An agent may never get in, which no run that ends can show. */
export const STARVES = "starvation";

/** @type {[name: string, piece: string, kind: string, from: string, to: string][]} */
const ROWS = [
  ["ring-publish-first", "ring-buffer", "swap",
    "items[written % CAPACITY] = item; Atomics.store(words, WRITTEN, written + 1);",
    "Atomics.store(words, WRITTEN, written + 1); items[written % CAPACITY] = item;"],
  ["ring-free-first", "ring-buffer", "swap",
    "for (let at = read; at < written; at += 1) into.push(items[at % CAPACITY]); Atomics.store(words, READ, written);",
    "Atomics.store(words, READ, written); for (let at = read; at < written; at += 1) into.push(items[at % CAPACITY]);"],
  ["ring-full-late", "ring-buffer", "off by one", "written - read >= CAPACITY", "written - read > CAPACITY"],
  ["ring-plain-read", "ring-buffer", "plain access",
    "let written = Atomics.load(words, WRITTEN);", "let written = words[WRITTEN];"],
  ["ring-plain-store", "ring-buffer", "plain access",
    "Atomics.store(words, WRITTEN, written + 1);", "words[WRITTEN] = written + 1;"],
  ["ring-full-early", "ring-buffer", RIGHT, "written - read >= CAPACITY", "written - read >= CAPACITY - 1"],

  ["condition-no-notify", "mutex-condition", "drop notify", "Atomics.notify(words, LOCK, 1);", ""],
  ["condition-held-again", "mutex-condition", "wrong value",
    "state = Atomics.compareExchange(words, LOCK, FREE, CONTENDED);",
    "state = Atomics.compareExchange(words, LOCK, FREE, HELD);"],
  ["condition-seen-late", "mutex-condition", "swap",
    "const seen = Atomics.load(words, condition); unlock(words);",
    "unlock(words); const seen = Atomics.load(words, condition);"],
  ["condition-signal-if-empty", "mutex-condition", "wake too few",
    "signal(words, NOT_EMPTY);", "if (words[COUNT] === 1) signal(words, NOT_EMPTY);"],
  ["condition-looks-once", "mutex-condition", "if for while",
    "while (words[COUNT] === 0) waitFor(words, NOT_EMPTY);", "if (words[COUNT] === 0) waitFor(words, NOT_EMPTY);"],
  ["condition-no-lock-again", "mutex-condition", "drop line",
    "Atomics.wait(words, condition, seen); lock(words);", "Atomics.wait(words, condition, seen);"],
  ["condition-notify-first", "mutex-condition", "notify before store",
    "Atomics.add(words, condition, 1); Atomics.notify(words, condition, 1);",
    "Atomics.notify(words, condition, 1); Atomics.add(words, condition, 1);"],
  ["condition-sleeps-while-held", "mutex-condition", "wrong expected",
    "Atomics.wait(words, LOCK, CONTENDED);", "Atomics.wait(words, LOCK, HELD);"],

  ["barrier-round-first", "barrier", "swap",
    "Atomics.store(words, CAME, 0); Atomics.add(words, ROUND, 1);",
    "Atomics.add(words, ROUND, 1); Atomics.store(words, CAME, 0);"],
  ["barrier-no-notify", "barrier", "drop notify", "Atomics.notify(words, ROUND);", ""],
  ["barrier-round-seen-late", "barrier", "swap",
    "const round = Atomics.load(words, ROUND); if (Atomics.add(words, CAME, 1) === agents - 1) {",
    "const came = Atomics.add(words, CAME, 1); const round = Atomics.load(words, ROUND); if (came === agents - 1) {"],
  ["barrier-notify-first", "barrier", "notify before store",
    "Atomics.add(words, ROUND, 1); Atomics.notify(words, ROUND);",
    "Atomics.notify(words, ROUND); Atomics.add(words, ROUND, 1);"],
  ["barrier-wakes-one", "barrier", "wake too few", "Atomics.notify(words, ROUND);", "Atomics.notify(words, ROUND, 1);"],

  ["asymmetric-no-notify", "asymmetric-barrier", "drop notify", "Atomics.notify(words, ROUND);", ""],
  ["asymmetric-if", "asymmetric-barrier", "if for while", "while (came < workers) {", "if (came < workers) {"],
  ["asymmetric-round-first", "asymmetric-barrier", "swap",
    "Atomics.store(words, CAME, 0); Atomics.add(words, ROUND, 1);",
    "Atomics.add(words, ROUND, 1); Atomics.store(words, CAME, 0);"],

  ["queue-lock-by-store", "bounded-queue", "load and store for compareExchange",
    "while (Atomics.compareExchange(words, LOCK, 0, 1) !== 0) Atomics.wait(words, LOCK, 1);",
    "while (Atomics.load(words, LOCK) !== 0) Atomics.wait(words, LOCK, 1); Atomics.store(words, LOCK, 1);"],
  ["queue-notify-first", "bounded-queue", "notify before store",
    "Atomics.store(words, LOCK, 0); Atomics.notify(words, LOCK, 1);",
    "Atomics.notify(words, LOCK, 1); Atomics.store(words, LOCK, 0);"],
  ["queue-notify-if-empty", "bounded-queue", "wake too few",
    "Atomics.add(words, PUT, 1); Atomics.notify(words, PUT, 1);",
    "if (Atomics.add(words, PUT, 1) === Atomics.load(words, TAKEN)) Atomics.notify(words, PUT, 1);"],
  ["queue-unlock-early", "bounded-queue", "swap",
    "Atomics.add(words, TAKEN, 1); Atomics.notify(words, TAKEN, 1); unlock(words);",
    "unlock(words); Atomics.add(words, TAKEN, 1); Atomics.notify(words, TAKEN, 1);"],

  ["mutex-2-sleeps-while-held", "futex-mutex-2", "wrong expected",
    "Atomics.wait(words, LOCK, CONTENDED);", "Atomics.wait(words, LOCK, HELD);"],
  ["mutex-2-no-store", "futex-mutex-2", "drop line", "Atomics.store(words, LOCK, FREE);", ""],
  ["mutex-3-notify-first", "futex-mutex-3", "notify before store",
    "Atomics.store(words, LOCK, FREE); Atomics.notify(words, LOCK, 1);",
    "Atomics.notify(words, LOCK, 1); Atomics.store(words, LOCK, FREE);"],
  ["mutex-3-held-again", "futex-mutex-3", "wrong value",
    "Atomics.wait(words, LOCK, CONTENDED); state = Atomics.exchange(words, LOCK, CONTENDED);",
    "Atomics.wait(words, LOCK, CONTENDED); state = Atomics.exchange(words, LOCK, HELD);"],
  ["mutex-3-no-notify", "futex-mutex-3", "drop notify", "Atomics.notify(words, LOCK, 1);", ""],
  ["mutex-3-by-store", "futex-mutex-3", "load and store for compareExchange",
    "let state = Atomics.compareExchange(words, LOCK, FREE, HELD); if (state === FREE) return;",
    "let state = Atomics.load(words, LOCK); if (state === FREE) { Atomics.store(words, LOCK, HELD); return; }"],

  ["deque-steals-by-store", "chase-lev", "load and store for compareExchange",
    "return Atomics.compareExchange(words, TOP, top, top + 1) === top ? task : 0;",
    "if (Atomics.load(words, TOP) !== top) return 0; Atomics.store(words, TOP, top + 1); return task;"],
  ["deque-top-early", "chase-lev", "swap",
    "Atomics.store(words, BOTTOM, bottom); const top = Atomics.load(words, TOP);",
    "const top = Atomics.load(words, TOP); Atomics.store(words, BOTTOM, bottom);"],
  ["deque-publish-first", "chase-lev", "swap",
    "Atomics.store(words, SLOTS + (bottom % SIZE), task); Atomics.store(words, BOTTOM, bottom + 1);",
    "Atomics.store(words, BOTTOM, bottom + 1); Atomics.store(words, SLOTS + (bottom % SIZE), task);"],
  ["deque-task-late", "chase-lev", "swap",
    "const task = Atomics.load(words, SLOTS + (top % SIZE));"
    + " return Atomics.compareExchange(words, TOP, top, top + 1) === top ? task : 0;",
    "const isMine = Atomics.compareExchange(words, TOP, top, top + 1) === top;"
    + " return isMine ? Atomics.load(words, SLOTS + (top % SIZE)) : 0;"],
  ["deque-bottom-first", "chase-lev", "swap",
    "const top = Atomics.load(words, TOP); const bottom = Atomics.load(words, BOTTOM);",
    "const bottom = Atomics.load(words, BOTTOM); const top = Atomics.load(words, TOP);"],

  ["cells-publish-first", "vyukov-queue", "swap",
    "cells[CELLS + (position % CAPACITY)] = item; Atomics.store(words, TURNS + (position % CAPACITY), position + 1);",
    "Atomics.store(words, TURNS + (position % CAPACITY), position + 1); cells[CELLS + (position % CAPACITY)] = item;"],
  ["cells-free-first", "vyukov-queue", "swap",
    "const item = cells[CELLS + (position % CAPACITY)];"
    + " Atomics.store(words, TURNS + (position % CAPACITY), position + CAPACITY);",
    "Atomics.store(words, TURNS + (position % CAPACITY), position + CAPACITY);"
    + " const item = cells[CELLS + (position % CAPACITY)];"],
  ["cells-claim-by-store", "vyukov-queue", "load and store for compareExchange",
    "if (Atomics.compareExchange(words, end, position, position + 1) === position) return position;",
    "if (Atomics.load(words, end) === position) { Atomics.store(words, end, position + 1); return position; }"],
  ["cells-turn-off", "vyukov-queue", "wrong value", "position + CAPACITY);", "position + CAPACITY - 1);"],

  ["seqlock-by-store", "seqlock", "load and store for compareExchange",
    "if (Atomics.compareExchange(words, SEQUENCE, before, before + 1) !== before) continue;",
    "if (Atomics.load(words, SEQUENCE) !== before) continue; Atomics.store(words, SEQUENCE, before + 1);"],
  ["seqlock-never-odd", "seqlock", "wrong value",
    "Atomics.compareExchange(words, SEQUENCE, before, before + 1)",
    "Atomics.compareExchange(words, SEQUENCE, before, before)"],
  ["seqlock-no-second-look", "seqlock", "wrong expected",
    "if (Atomics.load(words, SEQUENCE) === before) return [low, high];",
    "if (Atomics.load(words, SEQUENCE) >= before) return [low, high];"],
  ["seqlock-wraps-at-4", "seqlock", "ABA", "(sequence) => sequence + 1", "(sequence) => (sequence + 1) % 4"],

  ["mcs-linked-first", "mcs-lock", "swap",
    "Atomics.store(words, LOCKED + self, 1); Atomics.store(words, NEXT + before - 1, self + 1);",
    "Atomics.store(words, NEXT + before - 1, self + 1); Atomics.store(words, LOCKED + self, 1);"],
  ["mcs-by-store", "mcs-lock", "load and store for compareExchange",
    "if (Atomics.compareExchange(words, TAIL, self + 1, 0) === self + 1) return;",
    "if (Atomics.load(words, TAIL) === self + 1) { Atomics.store(words, TAIL, 0); return; }"],
  ["mcs-next-not-cleared", "mcs-lock", "drop line", "Atomics.store(words, NEXT + self, 0);", ""],
  ["clh-keeps-node", "clh-lock", "drop line", "this.node = this.before;", ""],
  ["clh-taken-late", "clh-lock", "swap",
    "Atomics.store(this.words, TAKEN + this.node, 1); this.before = Atomics.exchange(this.words, TAIL, this.node);",
    "this.before = Atomics.exchange(this.words, TAIL, this.node); Atomics.store(this.words, TAKEN + this.node, 1);"],
  ["ticket-notifies-one", "ticket-lock", "wake too few",
    "Atomics.notify(words, SERVED);", "Atomics.notify(words, SERVED, 1);"],
  ["ticket-if", "ticket-lock", "if for while", "while (served !== ticket) {", "if (served !== ticket) {"],
  ["ticket-by-store", "ticket-lock", "load and store for compareExchange",
    "const ticket = Atomics.add(words, TICKET, 1);",
    "const ticket = Atomics.load(words, TICKET); Atomics.store(words, TICKET, ticket + 1);"],
  ["ticket-with-a-time", "ticket-lock", RIGHT,
    "Atomics.wait(words, SERVED, served);", "Atomics.wait(words, SERVED, served, 10);"],

  ["readers-unmarked-sleep", "readers-writer", "drop line",
    "if (state > 1 && state % 2 !== 0) Atomics.wait(words, WAKE, wake);",
    "if (state > 1) Atomics.wait(words, WAKE, wake);"],
  ["readers-not-woken", "readers-writer", "drop notify",
    "wakeWriter(words); Atomics.notify(words, STATE);", "wakeWriter(words);"],
  ["readers-wake-first", "readers-writer", "notify before store",
    "Atomics.store(words, STATE, 0); wakeWriter(words); Atomics.notify(words, STATE);",
    "wakeWriter(words); Atomics.notify(words, STATE); Atomics.store(words, STATE, 0);"],
  ["readers-last-by-2", "readers-writer", "wrong expected", "=== 3) wakeWriter(words);", "=== 2) wakeWriter(words);"],
  ["readers-wake-seen-late", "readers-writer", "swap",
    "const wake = Atomics.load(words, WAKE); state = Atomics.load(words, STATE);",
    "state = Atomics.load(words, STATE); const wake = Atomics.load(words, WAKE);"],
  ["readers-writer-starves", "readers-writer", STARVES,
    "if (state % 2 !== 0) Atomics.wait(words, STATE, state);",
    "if (state === WRITER) Atomics.wait(words, STATE, state);"],

  ["stack-no-tag", "treiber-stack", "ABA",
    "(head, node) => head - nodeOf(head) + 8 + node", "(head, node) => head - nodeOf(head) + node"],
  ["stack-next-late", "treiber-stack", "swap",
    "Atomics.store(words, NEXT + node, nodeOf(head));"
    + " if (Atomics.compareExchange(words, HEAD, head, changed(head, node)) === head) return;",
    "if (Atomics.compareExchange(words, HEAD, head, changed(head, node)) !== head) continue;"
    + " Atomics.store(words, NEXT + node, nodeOf(head)); return;"],
  ["stack-pops-by-store", "treiber-stack", "load and store for compareExchange",
    "if (Atomics.compareExchange(words, HEAD, head, changed(head, next)) === head) return node;",
    "if (Atomics.load(words, HEAD) === head) { Atomics.store(words, HEAD, changed(head, next)); return node; }"],
  ["stack-tag-of-1-bit", "tagged-stack", "ABA", "TAG_BITS = 16;", "TAG_BITS = 1;"],
  ["stack-tag-of-2-bits", "tagged-stack", "ABA", "TAG_BITS = 16;", "TAG_BITS = 2;"],
  ["stack-tag-of-3-bits", "tagged-stack", "ABA", "TAG_BITS = 16;", "TAG_BITS = 3;"],

  ["bakery-choosing-unseen", "bakery", "drop line", "while (Atomics.load(words, CHOOSING + other) === 1);", ""],
  ["bakery-tie", "bakery", "wrong expected",
    "(number < mine || (number === mine && other < self))", "number < mine"],
  ["filter-last-first", "filter-lock", "swap",
    "Atomics.store(words, LEVEL + self, level); Atomics.store(words, LAST + level, self);",
    "Atomics.store(words, LAST + level, self); Atomics.store(words, LEVEL + self, level);"],
  ["filter-greater", "filter-lock", "off by one",
    "Atomics.load(words, LEVEL + other) >= level", "Atomics.load(words, LEVEL + other) > level"],
  ["philosophers-no-order", "philosophers", "lock order",
    "const [first, second] = [Math.min(left, right), Math.max(left, right)];",
    "const [first, second] = [left, right];"],

  ["audio-publish-first", "audio-queue", "swap",
    "for (let at = 0; at < BLOCK; at += 1) { left[(write + at) % LENGTH] = frame + at;"
    + " right[(write + at) % LENGTH] = -(frame + at); } Atomics.store(words, WRITE, (write + BLOCK) % LENGTH);",
    "Atomics.store(words, WRITE, (write + BLOCK) % LENGTH); for (let at = 0; at < BLOCK; at += 1) {"
    + " left[(write + at) % LENGTH] = frame + at; right[(write + at) % LENGTH] = -(frame + at); }"],
  ["audio-no-free-slot", "audio-queue", "off by one", "LENGTH - 1) % LENGTH;", "LENGTH - 1) % LENGTH + 1;"],

  ["pool-no-notify-at-the-end", "pool", "drop notify", "Atomics.notify(words, EPOCH, Infinity);", ""],
  ["pool-epoch-seen-late", "pool", RIGHT,
    "const epoch = Atomics.load(words, EPOCH); while (work(words, self));",
    "while (work(words, self)); const epoch = Atomics.load(words, EPOCH);"],
  ["pool-notify-first", "pool", RIGHT,
    "Atomics.add(words, EPOCH, 1); Atomics.notify(words, EPOCH); while (work(words, 0));",
    "Atomics.notify(words, EPOCH); Atomics.add(words, EPOCH, 1); while (work(words, 0));"],
  ["pool-epoch-first", "pool", RIGHT,
    "Atomics.store(words, RANGE, 16 * first + first + BATCH); Atomics.add(words, EPOCH, 1);"
    + " Atomics.notify(words, EPOCH);",
    "Atomics.add(words, EPOCH, 1); Atomics.notify(words, EPOCH);"
    + " Atomics.store(words, RANGE, 16 * first + first + BATCH);"],

  ["semaphore-notify-if-zero", "semaphore", "wake too few",
    "Atomics.add(words, PERMITS, 1); if (Atomics.load(words, SLEEPERS) > 0) Atomics.notify(words, PERMITS, 1);",
    "if (Atomics.add(words, PERMITS, 1) === 0) Atomics.notify(words, PERMITS, 1);"],
  ["semaphore-counts-late", "semaphore", "moved",
    "Atomics.add(words, SLEEPERS, 1); Atomics.wait(words, PERMITS, 0);",
    "Atomics.wait(words, PERMITS, 0); Atomics.add(words, SLEEPERS, 1);"],
  ["semaphore-by-store", "semaphore", "load and store for compareExchange",
    "if (Atomics.compareExchange(words, PERMITS, permits, permits - 1) === permits) return; continue;",
    "if (Atomics.load(words, PERMITS) !== permits) continue; Atomics.store(words, PERMITS, permits - 1); return;"],

  ["blocks-no-notify", "mailbox-blocks", HIDDEN,
    "Atomics.store(words, TURN, WRITERS); Atomics.notify(words, TURN);", "Atomics.store(words, TURN, WRITERS);"],
  ["blocks-turn-first", "mailbox-blocks", "swap",
    "numbers.forEach((number, at) => { block[at + 1] = number; }); Atomics.store(words, TURN, READERS);",
    "Atomics.store(words, TURN, READERS); numbers.forEach((number, at) => { block[at + 1] = number; });"],
  ["message-state-first", "mailbox-message", "swap",
    "message[0] = number; message[1] = -number; Atomics.store(words, STATE, state + 1);",
    "Atomics.store(words, STATE, state + 1); message[0] = number; message[1] = -number;"],
  ["message-no-notify", "mailbox-message", HIDDEN,
    "message[1] = -number; Atomics.store(words, STATE, state + 1); Atomics.notify(words, STATE, 1);",
    "message[1] = -number; Atomics.store(words, STATE, state + 1);"],
  ["message-frees-late", "mailbox-message", RIGHT,
    "Atomics.store(words, STATE, state + 1);"
    + " if (other !== -number) throw new Error(`the halves are ${number} and ${other}`);",
    "if (other !== -number) throw new Error(`the halves are ${number} and ${other}`);"
    + " Atomics.store(words, STATE, state + 1);"],
  ["calls-wait-once", "mailbox-calls", "if for while",
    "while (Atomics.load(words, STATE) !== ANSWERED) Atomics.wait(words, STATE, ASKED, TIMEOUT);",
    "if (Atomics.load(words, STATE) !== ANSWERED) Atomics.wait(words, STATE, ASKED, TIMEOUT);"],
  ["word-notify-first", "wait-notify", "notify before store",
    "Atomics.store(words, WORD, VALUE); Atomics.notify(words, WORD, 1);",
    "Atomics.notify(words, WORD, 1); Atomics.store(words, WORD, VALUE);"],
  ["word-no-notify", "wait-notify", "drop notify", "Atomics.notify(words, WORD, 1);", ""],
];

/** @type {readonly Readonly<Edit>[]} */
export const EDITS = Object.freeze(ROWS.map(([name, piece, kind, from, to]) => Object.freeze({
  name, piece, kind, from, to,
})));

/** @param {string} piece @returns {URL} its file */
export const fileOf = (piece) => new URL(`./pieces/${piece}.mjs`, import.meta.url);

/** @param {string} text @returns {RegExp} that finds it with any white space */
const findsText = (text) => new RegExp(text.trim().split(/\s+/)
  .map((word) => word.replace(/[$()*+.?[\\\]^{|}]/g, "\\$&")).join("\\s+"), "g");

/**
 * The text of a wrong program.
 * @param {Edit} edit
 * @throws if what it replaces doesn't occur exactly once
 */
export function editedText({ name, piece, kind, from, to }) {
  const text = readFileSync(fileOf(piece), "utf8");
  const places = [...text.matchAll(findsText(from))];
  if (places.length !== 1) throw new Error(`${name}: what it replaces occurs ${places.length} times in ${piece}`);
  const [{ 0: found, index = 0 }] = places;
  const rest = text.slice(index + found.length);
  const before = text.slice(0, index).replace(/^.*/, `// ${name}: ${piece} with one edit (${kind}).`);
  return before + to + rest;
}
