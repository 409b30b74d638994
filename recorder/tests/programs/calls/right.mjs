// Right: main blocks for each call's answer; a late notify of the call before wakes it, and then it waits again.
import { double } from "./calls.mjs";

double({ worker: "./worker.mjs", looksAgain: true }, 1, 2, 3, 4);
