// Which known name the recorder suggests for an unknown one.

import assert from "node:assert/strict";
import { test } from "node:test";
import { meant, nearest, slipOf } from "../../lib/options/nearest.mjs";

const KNOWN = ["agents", "buffers", "noBlock", "check", "init", "maxMoves"];

test("a name is near despite other capitals, other signs between words, or one wrong letter in three", () => {
  const near = {
    Agents: "agents", agent: "agents", agnets: "agents", max_moves: "maxMoves", "MAX-MOVES": "maxMoves", chek: "check",
    cehck: "check", checks: "check", buffer: "buffers", bfufesr: "buffers", block: "noBlock", moves: "maxMoves",
  };
  for (const [name, known] of Object.entries(near)) assert.equal(nearest(name, KNOWN), known, name);
});

test("a word that is near no known name is no slip, and the message lists all known names", () => {
  for (const name of ["count", "bytes", "clock", "in", "", "x"]) assert.equal(nearest(name, KNOWN), undefined, name);
  assert.equal(meant("agnts", KNOWN), "is agents meant?");
  assert.equal(meant("count", KNOWN), "there are agents, buffers, noBlock, check, init, maxMoves");
});

test("a slip is less: capitals, signs, or one letter more or another one that isn't the first", () => {
  const checks = ["Check", "CHECK", "checks", "chekc", "chek", "_check"];
  for (const name of checks) assert.equal(slipOf(name, KNOWN), "check", name);
  for (const name of ["no_block", "NoBlock", "no-block"]) assert.equal(slipOf(name, KNOWN), "noBlock");
  for (const name of ["unit", "int", "block", "checker", "checked", "recheck", "clerk", ""]) {
    assert.equal(slipOf(name, KNOWN), undefined, name);
  }
});
