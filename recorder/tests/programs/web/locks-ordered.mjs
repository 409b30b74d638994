// Right: two workers ask for the same two locks in the same order.
import { ask } from "./locks-askers.mjs";

await ask(["a", "b"], ["a", "b"]);
