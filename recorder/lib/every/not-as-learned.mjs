// What was learned of agents isn't what they do.

/** The message says how that is seen. */
export class NotAsLearned extends Error {}
