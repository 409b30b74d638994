// Wrong: each thread takes the lock of the account first from which it moves.
import { move } from "./threads.mjs";

await move((from, to) => [from, to]);
