// Wrong: a worker steals the lock while the other one counts, and that one goes on.
import { count } from "./locks-threads.mjs";

await count("under", "stealing");
