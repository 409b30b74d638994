// Wrong: each change wakes one waiter, which may be one that can't do anything, so all of them may sleep.
import { work } from "./threads.mjs";

await work({ wakes: 1 });
