// Right: threads that put and threads that take wait at one word, and each change wakes all of them.
import { work } from "./threads.mjs";

await work({ wakes: Infinity });
