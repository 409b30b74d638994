// What is kept of a run besides its script: how it was made, for its page and for a replay, and what is made of it for
// people to look at.

import { howMade } from "./how-made.mjs";
import { keepProgram } from "./kept-program.mjs";
import { keepPictures, notesOn } from "./pictures.mjs";

/**
 * @param {import("./run-store.mjs").RunStore} keeper
 * @param {import("../run/outcome.mjs").Outcome} outcome of the run that is kept
 * @param {import("../run/group.mjs").GroupOptions} options of the run
 * @param {import("../simulator/chosen.mjs").ChosenSimulator} simulator
 * @returns {{ notKept: string[], notes: string[] }} what isn't kept, and why; what a reader of the files must know
 */
export function keepBesides(keeper, outcome, options, simulator) {
  const noRow = keepProgram(keeper, outcome, options);
  const pictures = keepPictures(keeper, outcome, { simulator, ...howMade(options) });
  return { notKept: [...noRow, ...pictures], notes: notesOn(keeper, outcome) };
}
