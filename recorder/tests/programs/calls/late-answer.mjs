// Wrong: as late-notify, but the worker answers by a timer, so main is asleep before unless that time is up early.
import { double } from "./calls.mjs";

double({ worker: "./slow-worker.mjs", looksAgain: false }, 1, 2, 3, 4);
