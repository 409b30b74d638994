// Right: two workers read a table, and one writes it, under a lock with two modes.
import { use } from "./locks-users.mjs";

await use("exclusive");
