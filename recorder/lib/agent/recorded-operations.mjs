// Notes an agent's operations of an object in a run, in the agent's own thread.

import { marksBy } from "../objects/operation-marks.mjs";

/**
 * @param {import("./player.mjs").Player} player of the agent
 * @param {import("../memory/operation-list.mjs").OperationList} list its memory
 * @returns {import("../objects/object-client.mjs").OperationMarks} what the client of the object calls
 */
export function recordedOperations(player, list) {
  const { part, context: { board, log } } = player;
  /** @param {(event: number) => boolean} note */
  const noted = (note) => {
    part.needsRun();
    // An agent whose operation begins or ends does something new, as one that chooses.
    board.spins.found(part.agent);
    if (note(log.length)) return;
    part.enter();
    part.endAtLimit(`agent ${part.agent} has made more operations than are noted`, false);
  };
  return marksBy({
    lacks: (name) => player.refuse(`uses \`${name}\` of \`operations\`, and the object has no such method`),
    begins: (call) => noted((event) => list.begins(call, event)),
    ends: (outcome) => noted((event) => list.ends(outcome, event)),
    refuse: (what) => player.refuse(`has made an operation that returns ${what}, and that can't be compared`),
  });
}
