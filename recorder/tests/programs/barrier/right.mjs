// Right: three threads meet five times; each remembers the round before it arrives.
import { arriver } from "./generations.mjs";
import { meet } from "./threads.mjs";

await meet(5, arriver(Infinity));
