// Why some of node's tests don't pass, by reasons. A test's name is that of its file, without `test-` and the ending.

/**
 * @typedef {object} Reason
 * @property {RegExp} says what the recorder says about each run that fails
 * @property {string} why
 * @property {string} [tests] of each version
 * @property {string} [20] those of node 20 alone
 * @property {string} [24] those of node 24 alone
 */

/** @type {readonly Reason[]} */
export const REASONS = Object.freeze([
  {
    says: /isn't simulated|can't record/, why: "it needs what is refused, such as domains or the inspector",
    tests: `module-loading-error require-resolve-opts-paths-relative timers-immediate-queue-throw
      timers-reset-process-domain-on-throw worker-debug worker-execargv-invalid worker-execargv worker-fs-stat-watcher
      worker-heap-snapshot worker-heapdump-failure worker-message-port-close worker-message-port-move
      worker-messaging-errors-handler worker-messaging-errors-invalid worker-messaging-errors-timeout worker-messaging
      worker-name worker-no-stdin-stdout-interaction worker-process-cwd worker-process-env-shared
      worker-stack-overflow-stack-size worker-stdio-from-preload-module worker-terminate-http2-respond-with-file
      worker-unsupported-things worker-vm-context-terminate worker-workerdata-messageport`,
    20: `timers-active timers-enroll-invalid-msecs timers-enroll-second-time timers-max-duration-warning
      timers-unenroll-unref-interval timers-unref-active timers-unref-remove-other-unref-timers-only-one-fires
      timers-unref-remove-other-unref-timers`,
    24: "worker-cpu-profile worker-cpu-usage worker-eval-typescript worker-heap-profile worker-heap-statistics",
  },
  {
    says: /Missing expected exception/, why: "zlib is loaded before the test sets the largest length",
    tests: "zlib-brotli-kmaxlength-rangeerror zlib-kmaxlength-rangeerror", 24: "zlib-zstd-kmaxlength-rangeerror",
  },
  {
    says: /crc32\(''/, why: "node's crc32 of no bytes is 0 once somebody has looked where they are", 20: "zlib-crc32",
  },
  {
    says: /BroadcastChannel|ERR_INVALID_THIS/, why: "what stands for a BroadcastChannel is shown otherwise",
    tests: "broadcastchannel-custom-inspect worker-broadcastchannel",
  },
  {
    says: /c3: first/, why: "the seed draws which channel gets a broadcast first", tests: "worker-broadcastchannel-wpt",
  },
  {
    says: /hasRef|MESSAGEPORT|false !== true/, why: "async_hooks don't have what stands for Workers",
    tests: "worker-hasref worker-messageport-hasref",
  },
  {
    says: /ERR_INVALID_ARG_TYPE|options\.eval/, why: "the error of `new Worker` doesn't say what was given",
    tests: "worker-process-env worker-type-check worker-unsupported-eval-on-url",
  },
  {
    says: /globalPaths/, why: "node looks for NODE_PATH in the process, and a thread has variables of its own",
    tests: "module-globalpaths-nodepath",
  },
  { says: /AssertionError/, why: "no thread is held to its limits", tests: "worker-resource-limits" },
  {
    says: /AssertionError|transferred|MessagePort/, why: "FileHandles aren't transferred",
    tests: `worker-message-port-transfer-fake-js-transferable
      worker-message-port-transfer-fake-js-transferable-internal worker-message-port-transfer-filehandle`,
  },
  {
    says: /Missing expected exception/, why: "a file that a thread has left open is open until the runs end",
    tests: "worker-cleanup-handles worker-track-unmanaged-fds",
  },
  {
    says: /threw Error: ok/, why: "it replaces how node itself takes an error that nobody catches",
    tests: "worker-exit-code",
  },
  {
    says: /more than 100000 moves/, why: "it goes on for more than 100,000 moves",
    tests: "worker-http2-stream-terminate worker-message-port-message-before-close",
  },
  {
    says: /should not have been called/, why: "it has to be the file that node begins with",
    tests: "timers-immediate-unref-simple",
  },
  {
    says: /has made no call/, why: "a thread that makes no call isn't ended by others",
    tests: `worker-message-port-terminate-transfer-list worker-nexttick-terminate worker-terminate-microtask-loop
      worker-terminate-timers`,
  },
  {
    says: /Command failed/, why: "it copies node's program, which may need what is beside it",
    24: "module-loading-globalpaths",
  },
  { says: /16 threads/, why: "a run has at most 16 threads", tests: "worker-memory" },
  { says: /a child process/, why: "its process takes longer than 5 s", tests: "worker-init-failure" },
]);

/** Tests that leave in a thread what can't be taken back, such as that node has warned of something once. */
export const FRESH = `
  module-prototype-mutation timers-api-refs timers-nan-duration-emit-once-per-process
  timers-nan-duration-warning-promises timers-negative-duration-warning-emit-once-per-process timers-process-tampering
  worker-http2-generic-streams-terminate worker-terminate-source-map zlib-bytes-read
`;

/** Tests that fail or take more than a minute in node itself, if a module loads them. */
export const NOT_HERE = `
  worker-exit-heapsnapshot worker-message-port-inspect-during-init-hook worker-unsupported-path
  zlib-reject-garbage-after-end
`;
