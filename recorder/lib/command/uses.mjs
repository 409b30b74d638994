// What runs have used of one kind: what it was, and how many runs have used something.

import { listedOf, of } from "./summary-data.mjs";
import { Tally } from "./tally.mjs";

/** @typedef {{ runs: number, used: import("./summary-data.mjs").Listed<{ what: string }> }} UsesData */

export class Uses {
  #runs = 0;
  #used = new Tally();

  /** @param {string[]} all what a run has used @param {number} seed */
  add(all, seed) {
    if (all.length > 0) this.#runs += 1;
    for (const what of all) this.#used.add(what, seed);
  }

  /** @param {UsesData} data that is about other runs */
  join({ runs, used: { listed, others } }) {
    this.#runs += runs;
    this.#used.join(listed.map(({ what, ...entry }) => ({ ...entry, ...of(what) })), others);
  }

  /** @returns {UsesData} */
  data() {
    return { runs: this.#runs, used: listedOf(this.#used, (what) => ({ what })) };
  }
}
