// Wrong: a notify that comes after main took the answer wakes main's next call, which has no answer yet.
import { double } from "./calls.mjs";

double({ worker: "./worker.mjs", looksAgain: false }, 1, 2, 3, 4, 5, 6);
