// Which top-level await a thread has begun last: if none of its modules goes on, that one never settles. The engine
// calls back for each promise, which is slow, so only runs that note their lines of code have it.

import v8 from "node:v8";
import { framesHere, isAgentsFile } from "../../agent/frames.mjs";

const { promiseHooks } = /** @type {any} */ (v8);

/** How many frames are looked at: an await is in the innermost one. */
const FRAMES = 3;

/** @param {any} frame @returns {boolean} whether it is a module's own code, which begins where its file does */
const isOfModule = (frame) => frame.getEnclosingLineNumber?.() === 1 && frame.getEnclosingColumnNumber() === 1;

export class Awaits {
  /** @type {(() => void) | undefined} */
  #stop;

  /** @param {import("../../memory/thread-texts.mjs").ThreadTexts} threadTexts that get where it is */
  begin(threadTexts) {
    const note = () => {
      const frame = framesHere(note, FRAMES).find((each) => isAgentsFile(/** @type {any} */ (each.getFileName())));
      if (frame === undefined || !isOfModule(frame)) return;
      threadTexts.setAwait(`${frame.getFileName()}:${frame.getLineNumber()}:${frame.getColumnNumber()}`);
    };
    this.#stop = promiseHooks.onInit(note);
  }

  /** A run has ended. */
  stop() {
    this.#stop?.();
    this.#stop = undefined;
  }
}
