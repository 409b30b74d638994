/** How far a call is: sent to the worker, about to be made by it, answered by the engine. */
export const STAGE = Object.freeze({ sent: 0, called: 1, answered: 2 });
