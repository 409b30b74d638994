// The state in which a run ends: how it ended and all bytes, short and long.

import assert from "node:assert/strict";
import { createHash } from "node:crypto";
import { test } from "node:test";
import { FinalStates } from "../../lib/run/ending/final-state.mjs";

const ZEROS = "0".repeat(20_000);

/** What a state is known by, as the seed's summary shows it. @param {string} text */
const hashOf = (text) => createHash("sha256").update(text).digest("base64");

test("two states are the same if the ending and all bytes are, whichever came first", () => {
  const ends = [
    ["finished", ["00000001"]], ["finished", ["00000002"]], ["deadlock", ["00000001"]], ["finished", ["0000", "0001"]],
    ["finished", [ZEROS]], ["finished", [`${ZEROS}01`]], ["finished", [`${ZEROS.slice(2)}01`]], ["finished", []],
  ];
  const states = new FinalStates([]);
  for (const [ending, bytes] of [...ends, ...ends.toReversed()]) {
    assert.equal(states.of(ending, bytes).hash, hashOf(`${ending} ${bytes.join(" ")}`));
  }
  assert.equal(states.of("finished", ["00000001"]), states.of("finished", ["00000001"]));
  assert.equal(states.known.size, ends.length);
});

test("the summary of many states has a bounded size", () => {
  const states = new FinalStates([]);
  for (let end = 0; end < 1_000; end += 1) {
    const hex = end.toString(16).padStart(8, "0");
    assert.equal(states.of("finished", [hex]).hash, hashOf(`finished ${hex}`));
  }
  assert.ok(states.known.size <= 256);
});
