// Right: each thread takes the lock with the lower number first.
import { move } from "./threads.mjs";

await move((from, to) => [Math.min(from, to), Math.max(from, to)]);
