// One memory for tests that make thousands of boards, one after the other, in one thread. New memory would take longer
// than what is tried on a board.

import assert from "node:assert/strict";
import { after } from "node:test";
import { Board } from "../../lib/board/board.mjs";

const MEMORY = Board.memory();

// The large parts stay empty in these tests: no run ends or has a row, and no place is known.
const { text, reasons, places, row, ...written } = MEMORY;

after(() => {
  for (const buffer of [text, reasons, places, ...Object.values(row)]) {
    assert.ok(new Uint8Array(buffer).every((byte) => byte === 0));
  }
});

/** @returns {import("../../lib/board/board.mjs").BoardMemory} as new; no board that had it before may be in use */
export function emptyMemory() {
  for (const buffer of /** @type {SharedArrayBuffer[]} */ (Object.values(written))) new Uint8Array(buffer).fill(0);
  return MEMORY;
}
