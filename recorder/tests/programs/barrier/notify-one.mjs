// Wrong: the last thread that arrives wakes one of the others, and the third sleeps for ever.
import { arriver } from "./generations.mjs";
import { meet } from "./threads.mjs";

await meet(1, arriver(1));
