// Where the results of what a program has begun may come among each other: how many requests to node's pool a function
// makes, one behind the other. Between two of them other results may come.

/**
 * @typedef {object} Order where a result may come among others. Without it a task is the thread's own: these keep their
 * order.
 * @property {number} trips how many requests to node's pool it takes, one behind the other; 0: another thread of the
 * engine brings it
 * @property {object} [of] what it belongs to
 * @property {boolean} [isLast] whether it comes behind all that began before it and belongs to the same
 */

/** The order of a result that one request to the pool brings. */
export const ONE_TRIP = Object.freeze({ trips: 1 });

/** The order of a result that another thread of the engine brings. */
export const OF_ENGINE = Object.freeze({ trips: 0 });

/** Those with more than one, by what each request does. */
const REQUESTS = Object.freeze({
  appendFile: "open write close",
  cp: "stat lstat mkdir copy chmod",
  glob: "readdir lstat readdir",
  readFile: "open fstat read close",
  rm: "lstat unlink",
  truncate: "open ftruncate close",
  writeFile: "open write close",
});

/** @type {Record<string, Order>} */
const ORDERS = Object.fromEntries(Object.entries(REQUESTS).map(([name, requests]) =>
  [name, Object.freeze({ trips: requests.split(" ").length })]));

/** @param {string} name of a function of `fs`, `fs.promises` or `crypto` @returns {Order} */
export const orderOf = (name) => (Object.hasOwn(ORDERS, name) ? ORDERS[name] : ONE_TRIP);
