// Right: a promise that may reject while main awaits something else has its handler at once.
import { ask } from "./ask.mjs";

const wrong = ask("wrong").catch((error) => `refused: ${error.message}`);
const right = await ask("right");
const answers = [right, await wrong];
if (answers.join() !== "right!,refused: wrong") throw new Error(`answers ${answers}`);
