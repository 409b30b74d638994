// Wrong: the first of two workers that ends also ends the input into which both are piped.
import { text } from "node:stream/consumers";
import { Worker } from "node:worker_threads";

const started = () => new Worker(new URL("./sums.mjs", import.meta.url), { stdin: true, stdout: true });
const [one, other, last] = [started(), started(), started()];
let isLate = false;
last.stdin.on("error", () => { isLate = true; });
for (const each of [one, other]) each.stdout.pipe(last.stdin);
one.stdin.end("1 2 3");
other.stdin.end("4 5");
const sum = await text(last.stdout);
if (isLate || sum !== "15 ") throw new Error(`the sum is ${sum}`);
