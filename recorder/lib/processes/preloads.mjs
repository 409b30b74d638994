// Whether code was loaded before the recorder. It may have kept constructors and an `Atomics` that aren't watched.

// What loads code before the program; one word may have several, as in NODE_OPTIONS.
const LOADING = /(^|\s)(-r|--require|--import|--loader|--experimental-loader)(=|\s|$)/;

/** @returns {boolean} whether node's own options load code before the program */
export const preloads = () => [...process.execArgv, process.env.NODE_OPTIONS ?? ""].some((word) => LOADING.test(word));
