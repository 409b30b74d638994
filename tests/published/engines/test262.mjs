// test262's tests of several agents: the files that call `$262.agent.start`, by their folders in
// `built-ins/Atomics`.

const SPURIOUS = ["no-operation", ...["add", "and", "compareExchange", "exchange", "or", "store", "sub", "xor"]
  .map((name) => `on-${name}`)].map((name) => `no-spurious-wakeup-${name}`).join(" ");
const WAIT_ASYNC = `
  false-for-timeout-agent good-views nan-for-timeout-agent negative-timeout-agent ${SPURIOUS} null-for-timeout-agent
  object-for-timeout-agent poisoned-object-for-timeout-throws-agent symbol-for-index-throws-agent
  symbol-for-timeout-throws-agent symbol-for-value-throws-agent true-for-timeout-agent undefined-for-timeout-agent
  undefined-index-defaults-to-zero-agent value-not-equal-agent waiterlist-block-indexedposition-wake
  was-woken-before-timeout
`;

/** @type {Record<string, string>} */
const NAMES = {
  notify: `
    count-defaults-to-infinity-missing count-defaults-to-infinity-undefined negative-count notify-all-on-loc
    notify-all notify-in-order-one-time notify-in-order notify-nan notify-one notify-renotify-noop notify-two
    notify-with-no-agents-waiting notify-with-no-matching-agents-waiting notify-zero undefined-index-defaults-to-zero
  `,
  "notify/bigint": `
    notify-all-on-loc
  `,
  wait: `
    false-for-timeout-agent good-views nan-for-timeout negative-timeout-agent ${SPURIOUS} null-for-timeout-agent
    object-for-timeout-agent poisoned-object-for-timeout-throws-agent symbol-for-index-throws-agent
    symbol-for-timeout-throws-agent symbol-for-value-throws-agent true-for-timeout-agent undefined-for-timeout
    undefined-index-defaults-to-zero value-not-equal wait-index-value-not-equal waiterlist-block-indexedposition-wake
    waiterlist-order-of-operations-is-fifo was-woken-before-timeout
  `,
  "wait/bigint": `
    false-for-timeout-agent nan-for-timeout negative-timeout-agent ${SPURIOUS} value-not-equal
    waiterlist-block-indexedposition-wake waiterlist-order-of-operations-is-fifo was-woken-before-timeout
  `,
  waitAsync: WAIT_ASYNC,
  "waitAsync/bigint": WAIT_ASYNC,
};

/** Their paths from the folder of SpiderMonkey's sources. */
export const TEST262 = Object.entries(NAMES).flatMap(([folder, names]) =>
  names.trim().split(/\s+/).map((name) => `tests/test262/built-ins/Atomics/${folder}/${name}.js`));
