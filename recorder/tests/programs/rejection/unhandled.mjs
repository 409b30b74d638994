// Wrong: the first promise may reject while main still awaits the second one, and then nobody handles it.
import { ask } from "./ask.mjs";

const wrong = ask("wrong");
const right = await ask("right");
try {
  await wrong;
  throw new Error("it isn't refused");
} catch (error) {
  if (right !== "right!" || error.message !== "wrong") throw error;
}
