// Under how many seeds tests try programs with known answers, and how many random programs they try.

/**
 * The number that SEEDS has in the environment; without SEEDS the usual one.
 * @param {number} usual
 * @returns {number}
 */
export const seedsTried = (usual) => Number(process.env.SEEDS ?? usual);
