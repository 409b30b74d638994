// All that node 20 has for a program, and what becomes of it in a run: `simulated` is replaced or done by a synchronous
// version, and `harmless` stays node's own. `real` is answered by the machine and noted with its name and line.
// `refused` ends the run with its name and line. One word stands for a whole module. `node-versions.mjs` adds what
// later versions have.

import { withLater } from "../../processes/node-versions.mjs";

/** @typedef {import("../../processes/node-versions.mjs").ApiPolicy} ApiPolicy */
/**
 * @typedef {ApiPolicy | Partial<Record<ApiPolicy, string>>} ModulePolicy of a module; the names of its exports by kind
 */

// Modules with an underscore are parts of others.
const PARTS = [
  "_http_agent", "_http_client", "_http_common", "_http_incoming", "_http_outgoing", "_http_server", "_stream_duplex",
  "_stream_passthrough", "_stream_readable", "_stream_transform", "_stream_wrap", "_stream_writable", "_tls_common",
  "_tls_wrap",
];

/** @type {Readonly<Record<string, ModulePolicy>>} by the names of the modules that take or leave `node:` */
export const MODULES = withLater({
  ...Object.fromEntries(PARTS.map((name) => [name, /** @type {ApiPolicy} */ ("harmless")])),
  assert: "harmless",
  "assert/strict": "harmless",
  async_hooks: "harmless",
  buffer: {
    harmless: `Buffer SlowBuffer transcode isUtf8 isAscii kMaxLength kStringMaxLength btoa atob constants
      INSPECT_MAX_BYTES Blob File`,
    refused: "resolveObjectURL",
  },
  child_process: {
    real: "ChildProcess exec execFile execFileSync execSync fork spawn spawnSync",
    refused: "_forkChild",
  },
  cluster: {
    harmless: `_events _eventsCount _maxListeners isWorker isMaster isPrimary workers settings SCHED_NONE SCHED_RR
      schedulingPolicy`,
    refused: "Worker setupPrimary setupMaster fork disconnect",
  },
  console: "simulated",
  constants: "harmless",
  crypto: {
    simulated: `checkPrime generatePrime hkdf pbkdf2 generateKeyPair generateKey randomBytes randomFill randomFillSync
      randomInt randomUUID scrypt sign verify getRandomValues prng pseudoRandomBytes rng webcrypto`,
    harmless: `checkPrimeSync createCipheriv createDecipheriv createDiffieHellman createDiffieHellmanGroup createECDH
      createHash createHmac createPrivateKey createPublicKey createSecretKey createSign createVerify diffieHellman
      generatePrimeSync getCiphers getCipherInfo getCurves getDiffieHellman getHashes hkdfSync pbkdf2Sync
      generateKeyPairSync generateKeySync privateDecrypt privateEncrypt publicDecrypt publicEncrypt scryptSync
      timingSafeEqual getFips hash Certificate Cipher Cipheriv Decipher Decipheriv DiffieHellman DiffieHellmanGroup Hash
      Hmac KeyObject Sign Verify X509Certificate secureHeapUsed createCipher createDecipher constants fips subtle ECDH`,
    refused: "setEngine setFips",
  },
  dgram: { real: "createSocket Socket", refused: "_createSocketHandle" },
  diagnostics_channel: "harmless",
  dns: {
    harmless: `getDefaultResultOrder setDefaultResultOrder ADDRCONFIG ALL V4MAPPED NODATA FORMERR SERVFAIL NOTFOUND
      NOTIMP REFUSED BADQUERY BADNAME BADFAMILY BADRESP CONNREFUSED TIMEOUT EOF FILE NOMEM DESTRUCTION BADSTR BADFLAGS
      NONAME BADHINTS NOTINITIALIZED LOADIPHLPAPI ADDRGETNETWORKPARAMS CANCELLED getServers promises`,
    real: `lookup lookupService Resolver setServers resolve resolve4 resolve6 resolveAny resolveCaa resolveCname
      resolveMx resolveNaptr resolveNs resolvePtr resolveSoa resolveSrv resolveTxt reverse`,
  },
  "dns/promises": {
    harmless: `getDefaultResultOrder setDefaultResultOrder NODATA FORMERR SERVFAIL NOTFOUND NOTIMP REFUSED BADQUERY
      BADNAME BADFAMILY BADRESP CONNREFUSED TIMEOUT EOF FILE NOMEM DESTRUCTION BADSTR BADFLAGS NONAME BADHINTS
      NOTINITIALIZED LOADIPHLPAPI ADDRGETNETWORKPARAMS CANCELLED getServers`,
    real: `lookup lookupService Resolver setServers resolve resolve4 resolve6 resolveAny resolveCaa resolveCname
      resolveMx resolveNaptr resolveNs resolvePtr resolveSoa resolveSrv resolveTxt reverse`,
  },
  domain: "refused",
  events: "harmless",
  fs: {
    simulated: `appendFile access chown chmod close copyFile cp createReadStream createWriteStream exists fchown fchmod
      fdatasync fstat fsync ftruncate futimes lchown lchmod link lstat lutimes mkdir mkdtemp open readdir read readv
      readFile readlink realpath rename rm rmdir stat statfs symlink truncate unlink utimes writeFile write writev
      ReadStream WriteStream FileReadStream FileWriteStream promises opendir Dir`,
    harmless: `opendirSync appendFileSync accessSync chownSync chmodSync closeSync copyFileSync cpSync existsSync
      fchownSync fchmodSync fdatasyncSync fstatSync fsyncSync ftruncateSync futimesSync lchownSync lchmodSync linkSync
      lstatSync lutimesSync mkdirSync mkdtempSync openSync readdirSync readSync readvSync readFileSync readlinkSync
      realpathSync renameSync rmSync rmdirSync statSync statfsSync symlinkSync truncateSync unlinkSync utimesSync
      writeFileSync writeSync writevSync Dirent Stats _toUnixTimestamp F_OK R_OK W_OK X_OK constants`,
    refused: "openAsBlob unwatchFile watch watchFile",
  },
  "fs/promises": {
    simulated: `access copyFile cp open opendir rename truncate rm rmdir mkdir readdir readlink symlink lstat stat
      statfs link unlink chmod lchmod lchown chown utimes lutimes realpath mkdtemp writeFile appendFile readFile`,
    harmless: "constants",
    refused: "watch",
  },
  http: {
    harmless: `METHODS STATUS_CODES Agent IncomingMessage OutgoingMessage ServerResponse validateHeaderName
      validateHeaderValue setMaxIdleHTTPParsers maxHeaderSize globalAgent _connectionListener`,
    real: "ClientRequest Server createServer get request",
  },
  http2: {
    harmless: `constants getDefaultSettings getPackedSettings getUnpackedSettings sensitiveHeaders Http2ServerRequest
      Http2ServerResponse`,
    real: "connect createServer createSecureServer performServerHandshake",
  },
  https: { harmless: "Agent globalAgent", real: "Server createServer get request" },
  inspector: { harmless: "url", refused: "open close waitForDebugger console Session Network" },
  "inspector/promises": { harmless: "url", refused: "open close waitForDebugger console Session Network" },
  module: {
    harmless: `_cache _pathCache _extensions globalPaths wrap wrapper _debug isBuiltin _readPackage _findPath _stat
      _nodeModulePaths _resolveLookupPaths _load _resolveFilename createRequire _initPaths _preloadModules
      Module builtinModules findSourceMap SourceMap`,
    simulated: "syncBuiltinESMExports",
    refused: "register runMain",
  },
  net: {
    harmless: `_normalizeArgs _setSimultaneousAccepts BlockList SocketAddress isIP isIPv4 isIPv6 _createServerHandle
      getDefaultAutoSelectFamily setDefaultAutoSelectFamily getDefaultAutoSelectFamilyAttemptTimeout
      setDefaultAutoSelectFamilyAttemptTimeout`,
    real: "connect createConnection createServer Server Socket Stream",
  },
  os: {
    harmless: `arch availableParallelism cpus endianness freemem getPriority homedir hostname loadavg networkInterfaces
      platform release tmpdir totalmem type userInfo uptime version machine constants EOL devNull`,
    refused: "setPriority",
  },
  path: "harmless",
  "path/posix": "harmless",
  "path/win32": "harmless",
  perf_hooks: {
    simulated: "performance",
    harmless: `Performance PerformanceEntry PerformanceMark PerformanceMeasure PerformanceObserverEntryList
      PerformanceResourceTiming createHistogram constants`,
    refused: "PerformanceObserver monitorEventLoopDelay",
  },
  process: {
    simulated: `exitCode uptime getActiveResourcesInfo reallyExit exit hrtime nextTick stdout stdin stderr abort env
      argv execArgv pid emitWarning`,
    harmless: `version versions arch platform release _rawDebug moduleLoadList _events _eventsCount _maxListeners domain
      _exiting config _getActiveRequests _getActiveHandles cpuUsage resourceUsage memoryUsage constrainedMemory
      availableMemory getuid geteuid getgid getegid getgroups allowedNodeEnvironmentFlags assert features
      _fatalException hasUncaughtExceptionCaptureCallback _tickCallback sourceMapsEnabled setSourceMapsEnabled
      getBuiltinModule umask cwd title ppid execPath debugPort argv0 _eval _preload_modules report mainModule
      _startProfilerIdleNotifier _stopProfilerIdleNotifier loadEnvFile`,
    refused: `binding _linkedBinding dlopen _kill kill openStdin setUncaughtExceptionCaptureCallback _debugProcess
      _debugEnd chdir initgroups setgroups setegid seteuid setgid setuid`,
  },
  punycode: "harmless",
  querystring: "harmless",
  readline: "harmless",
  "readline/promises": "harmless",
  repl: "refused",
  stream: "harmless",
  "stream/consumers": "harmless",
  "stream/promises": "harmless",
  "stream/web": {
    harmless: `ReadableStream ReadableStreamDefaultReader ReadableStreamBYOBReader ReadableStreamBYOBRequest
      ReadableByteStreamController ReadableStreamDefaultController TransformStream TransformStreamDefaultController
      WritableStream WritableStreamDefaultWriter WritableStreamDefaultController ByteLengthQueuingStrategy
      CountQueuingStrategy TextEncoderStream TextDecoderStream`,
    simulated: "CompressionStream DecompressionStream",
  },
  string_decoder: "harmless",
  sys: "harmless",
  timers: {
    simulated: "setTimeout clearTimeout setImmediate clearImmediate setInterval clearInterval promises",
    refused: "_unrefActive active unenroll enroll",
  },
  "timers/promises": "simulated",
  tls: {
    harmless: `CLIENT_RENEG_LIMIT CLIENT_RENEG_WINDOW DEFAULT_CIPHERS DEFAULT_ECDH_CURVE DEFAULT_MIN_VERSION
      DEFAULT_MAX_VERSION getCiphers rootCertificates convertALPNProtocols checkServerIdentity createSecureContext
      SecureContext`,
    real: "TLSSocket Server createServer connect",
    refused: "createSecurePair",
  },
  trace_events: "refused",
  tty: { harmless: "isatty", refused: "ReadStream WriteStream" },
  url: "harmless",
  util: "harmless",
  "util/types": "harmless",
  v8: {
    harmless: `cachedDataVersionTag getHeapSnapshot getHeapStatistics getHeapSpaceStatistics getHeapCodeStatistics
      Serializer Deserializer DefaultSerializer DefaultDeserializer deserialize serialize writeHeapSnapshot promiseHooks
      queryObjects startupSnapshot GCProfiler`,
    refused: "setFlagsFromString takeCoverage stopCoverage setHeapSnapshotNearHeapLimit",
  },
  vm: {
    harmless: `Script createContext createScript runInContext runInNewContext runInThisContext isContext compileFunction
      constants Module SourceTextModule SyntheticModule`,
    refused: "measureMemory",
  },
  wasi: "refused",
  worker_threads: {
    simulated: `isMainThread MessagePort MessageChannel receiveMessageOnPort resourceLimits threadId SHARE_ENV Worker
      parentPort workerData BroadcastChannel setEnvironmentData getEnvironmentData`,
    harmless: "markAsUntransferable",
    refused: "moveMessagePortToContext postMessageToThread",
  },
  zlib: {
    simulated: `deflate gzip deflateRaw unzip inflate gunzip inflateRaw brotliCompress brotliDecompress Deflate Inflate
      Gzip Gunzip DeflateRaw InflateRaw Unzip BrotliCompress BrotliDecompress createDeflate createInflate
      createDeflateRaw createInflateRaw createGzip createGunzip createUnzip createBrotliCompress
      createBrotliDecompress`,
    harmless: `crc32 deflateSync gzipSync deflateRawSync unzipSync inflateSync gunzipSync inflateRawSync
      brotliCompressSync brotliDecompressSync constants codes`,
  },
}, ({ modules }) => modules);

/** @type {Readonly<Record<string, ModulePolicy>>} the modules that are only there with `node:` */
export const SCHEME_MODULES = withLater({
  // What `run` does is refused by what makes the runner.
  "node:test": { simulated: "after afterEach before beforeEach describe it run suite test mock skip todo only" },
  "node:test/reporters": "refused",
  "node:sea": "harmless",
}, ({ schemes }) => schemes);

const ALL = withLater({ globals: {
  simulated: `Date Math console process clearImmediate setImmediate clearInterval clearTimeout setInterval setTimeout
    queueMicrotask structuredClone BroadcastChannel MessageChannel MessagePort performance SharedArrayBuffer Atomics
    WebAssembly crypto AbortSignal CompressionStream DecompressionStream require module exports __filename
    __dirname`,
  harmless: `Object Function Array Number parseFloat parseInt Infinity NaN undefined Boolean String Symbol Promise
    RegExp Error AggregateError EvalError RangeError ReferenceError SyntaxError TypeError URIError globalThis JSON Intl
    ArrayBuffer Uint8Array Int8Array Uint16Array Int16Array Uint32Array Int32Array Float32Array Float64Array
    Uint8ClampedArray BigUint64Array BigInt64Array DataView Map BigInt Set WeakMap WeakSet Proxy Reflect
    FinalizationRegistry WeakRef decodeURI decodeURIComponent encodeURI encodeURIComponent escape unescape eval isFinite
    isNaN global Buffer URL URLSearchParams DOMException AbortController Event EventTarget TextEncoder TextDecoder
    TransformStream TransformStreamDefaultController WritableStream WritableStreamDefaultController
    WritableStreamDefaultWriter ReadableStream ReadableStreamDefaultReader ReadableStreamBYOBReader
    ReadableStreamBYOBRequest ReadableByteStreamController ReadableStreamDefaultController ByteLengthQueuingStrategy
    CountQueuingStrategy TextEncoderStream TextDecoderStream atob btoa MessageEvent Blob File Performance
    PerformanceEntry PerformanceMark PerformanceMeasure PerformanceObserverEntryList PerformanceResourceTiming FormData
    Headers Request Response Crypto CryptoKey SubtleCrypto CustomEvent gc`,
  real: "fetch",
  refused: "PerformanceObserver EventSource",
} }, ({ globals }) => ({ globals }));

/** @type {Readonly<Partial<Record<ApiPolicy, string>>>} */
export const GLOBALS = ALL.globals;

/**
 * Methods that are refused though their objects aren't: what they do takes a thread of its own, or a real clock.
 * @type {Readonly<Record<string, string>>}
 */
export const METHODS = withLater({
  "Performance.prototype": "eventLoopUtilization",
  "SubtleCrypto.prototype": "generateKey",
  WebAssembly: "compileStreaming instantiateStreaming",
}, ({ methods }) => methods);
