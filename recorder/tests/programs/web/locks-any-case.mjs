// Wrong: a worker counts also if the lock isn't available.
import { count } from "./locks-threads.mjs";

await count("under", "in any case");
