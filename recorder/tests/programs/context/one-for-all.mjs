// Wrong: the current request is kept in a variable, which the next request changes during an await.
import { setTimeout as sleep } from "node:timers/promises";
import { run } from "./requests.mjs";

let current;
await run(async (id, asked) => {
  current = id;
  const answer = await asked(current);
  await sleep(5);
  return `${current} ${answer}`;
});
