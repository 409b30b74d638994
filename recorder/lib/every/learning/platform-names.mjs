// Names of what agents may use of the language and of node while they are learned. All others may be named, and refuse
// when they are reached.

/** Names of the language. What of them looks at a clock, or keeps something, refuses by itself. */
export const LANGUAGE = [
  "AggregateError", "Array", "ArrayBuffer", "AsyncDisposableStack", "Atomics", "BigInt", "BigInt64Array",
  "BigUint64Array", "Boolean", "DataView", "Date", "DisposableStack", "Error", "EvalError", "FinalizationRegistry",
  "Float16Array", "Float32Array", "Float64Array", "Function", "Infinity", "Int16Array", "Int32Array", "Int8Array",
  "Intl", "Iterator", "JSON", "Map", "Math", "NaN", "Number", "Object", "Promise", "Proxy", "RangeError",
  "ReferenceError", "Reflect", "RegExp", "Set", "SharedArrayBuffer", "String", "SuppressedError", "Symbol",
  "SyntaxError", "TypeError", "URIError", "Uint16Array", "Uint32Array", "Uint8Array", "Uint8ClampedArray", "WeakMap",
  "WeakSet", "decodeURI", "decodeURIComponent", "encodeURI", "encodeURIComponent", "escape", "global", "globalThis",
  "isFinite", "isNaN", "parseFloat", "parseInt", "undefined", "unescape",
];

/** Names of node that keep nothing else than their objects do, which are shown or leave their moment unmerged. */
export const HARMLESS_GLOBALS = [
  "AbortController", "AbortSignal", "Buffer", "CustomEvent", "DOMException", "Event", "EventTarget", "TextDecoder",
  "TextEncoder", "URL", "URLSearchParams", "atob", "btoa", "console", "performance", "process", "structuredClone",
];

/** What of the process is always the same. */
export const OF_PROCESS = [
  "arch", "config", "cwd", "execPath", "exitCode", "features", "hrtime", "platform", "release",
  "uptime", "version", "versions",
];

/** What writes something, and returns nothing. */
export const SAYS = [
  "assert", "clear", "count", "countReset", "debug", "dir", "dirxml", "error", "group", "groupCollapsed", "groupEnd",
  "info", "log", "table", "time", "timeEnd", "timeLog", "timeStamp", "trace", "warn",
];

/** What of `globalThis.crypto` draws random bytes. */
export const OF_WEB_CRYPTO = ["getRandomValues", "randomUUID"];

/** What of `crypto` is computed from what it is given, or draws random numbers. */
const OF_CRYPTO = [
  "Hash", "Hmac", "constants", "createHash", "createHmac", "getCiphers", "getCurves", "getHashes", "getRandomValues",
  "hash", "hkdfSync",
  "pbkdf2Sync", "randomBytes", "randomFillSync", "randomInt", "randomUUID", "randomUUIDv7", "scryptSync",
  "timingSafeEqual",
];

const OF_EVENTS = [
  "EventEmitter", "captureRejectionSymbol", "defaultMaxListeners", "errorMonitor", "getEventListeners",
  "getMaxListeners", "init", "length", "listenerCount", "name", "once", "usingDomains",
];

const OF_UTIL = [
  "TextDecoder", "TextEncoder", "callbackify", "format", "formatWithOptions", "getSystemErrorName", "inherits",
  "inspect", "isArray", "isDeepStrictEqual", "parseEnv", "promisify", "stripVTControlCharacters", "toUSVString",
  "types",
];

const OF_URL = [
  "URL", "URLSearchParams", "Url", "domainToASCII", "domainToUnicode", "fileURLToPath", "fileURLToPathBuffer",
  "format", "parse", "pathToFileURL", "resolve", "resolveObject", "urlToHttpOptions",
];

const OF_OS = ["EOL", "arch", "constants", "devNull", "endianness", "platform", "type"];

const OF_BUFFER = [
  "Buffer", "atob", "btoa", "constants", "isAscii", "isUtf8", "kMaxLength", "kStringMaxLength", "transcode",
];

/**
 * What of a module of node's is as it is.
 * @type {Record<string, string[] | "all">}
 */
export const OF_MODULES = {
  "assert": "all", "assert/strict": "all", "buffer": OF_BUFFER, "crypto": OF_CRYPTO, "events": OF_EVENTS, "os": OF_OS,
  "path": "all", "path/posix": "all", "path/win32": "all", "perf_hooks": ["constants"], "querystring": "all",
  "string_decoder": "all", "url": OF_URL, "util": OF_UTIL, "util/types": "all",
  "worker_threads": ["SHARE_ENV", "isMainThread"],
};
