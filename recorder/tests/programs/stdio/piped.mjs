// Right: the output of two workers is piped into the input of a third one, which ends when both have ended.
import { once } from "node:events";
import { text } from "node:stream/consumers";
import { Worker } from "node:worker_threads";

const started = () => new Worker(new URL("./sums.mjs", import.meta.url), { stdin: true, stdout: true });
const [one, other, last] = [started(), started(), started()];
for (const each of [one, other]) each.stdout.pipe(last.stdin, { end: false });
one.stdin.end("1 2 3");
other.stdin.end("4 5");
await Promise.all([once(one.stdout, "end"), once(other.stdout, "end")]);
last.stdin.end();
const sum = await text(last.stdout);
if (sum !== "15 ") throw new Error(`the sum is ${sum}`);
