// Right: two workers read and write a count under one lock.
import { count } from "./locks-threads.mjs";

await count("under", "under");
