// What a search of a file of automata finds, in the form in which the proved search reports it.

import { programOf } from "./file.mjs";
import { Kinds, blocksIn, resultOf } from "./result.mjs";
import { Search } from "./search.mjs";

/**
 * Searches the schedules of a file of automata, in JavaScript.
 * @param {import("./file.mjs").FileData} data
 * @param {{ timeouts: import("./search.mjs").Choice, limit: number }} bounds
 * @returns {import("./result.mjs").Result}
 */
export function searched(data, bounds) {
  const program = programOf(data);
  const search = new Search(program, bounds);
  search.run();
  const kinds = new Kinds(search).find();
  return resultOf(search, kinds, {
    position: (node) => program.positions.of(node),
    blocksOf: (memory) => blocksIn(search.world, memory),
  });
}
