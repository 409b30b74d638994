// Wrong: between main's look at the head and its exchange the head goes away and comes back with another next node.
import { use } from "./threads.mjs";

await use({ counts: false });
