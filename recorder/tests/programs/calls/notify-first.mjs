// Wrong: the worker notifies before it posts the answer, so main may wake and find no message.
import { double } from "./calls.mjs";

double({ worker: "./notifies-first.mjs", looksAgain: false }, 1, 2);
