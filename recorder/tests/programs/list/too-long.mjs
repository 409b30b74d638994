// Wrong: the worker can send a list of 6,000 numbers, but the first thread can't read it, and hears no `messageerror`.
import { addedUp } from "./main.mjs";

const sum = await addedUp(6_000, 6_000);
if (sum !== 18_003_000) throw new Error(`the sum is ${sum}`);
