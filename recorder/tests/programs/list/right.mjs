// Right: a list of 500 numbers can be read in any thread.
import { addedUp } from "./main.mjs";

const sum = await addedUp(1_500, 500);
if (sum !== 375_750) throw new Error(`the sum is ${sum}`);
