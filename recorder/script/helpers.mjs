// Helpers: the agents of a script that stand for Atomics.waitAsync. No agent sleeps in such a wait, so the agent that
// calls it goes on. But an agent of a script that waits does nothing else. So each of these waits is a helper's. Both
// notify a place of their own before the wait, first the agent and then the helper, and another one after it, first the
// helper. The view of these two places names both: `waitAsync_2_of_0` is that of helper 2, which serves agent 0.

/** The elements of the view: of the place that is notified before the wait, and of that after it. */
export const BEGINS = 0;
export const ENDS = 1;

const HELPERS_VIEW = /^waitAsync_(\d+)_of_(\d+)$/;

/** @param {number} helper @param {number} owner the agent that it serves @returns {string} the name of their view */
export const helpersView = (helper, owner) => `waitAsync_${helper}_of_${owner}`;

/**
 * @param {{ name: string }[]} views of a script
 * @returns {Map<number, number>} from each helper to the agent that it serves
 */
export function helpersIn(views) {
  return new Map(views.flatMap(({ name }) => {
    const [, helper, owner] = HELPERS_VIEW.exec(name) ?? [];
    return helper === undefined ? [] : [[Number(helper), Number(owner)]];
  }));
}

/**
 * @param {unknown[]} does a call: its name, its view's, its index, and what else it takes
 * @returns {{ helper: number, owner: number, begins: boolean } | undefined} undefined: it hands nothing over
 */
export function handOverOf([, view, index]) {
  const [, helper, owner] = HELPERS_VIEW.exec(`${view}`) ?? [];
  return helper === undefined ? undefined : { helper: Number(helper), owner: Number(owner), begins: index === BEGINS };
}
