// The packages of Debian's that AVA needs to run: some others that it depends on are never loaded.

export const PACKAGES = `
  ava node-ansi-regex node-ansi-styles node-anymatch node-array-find-index node-arrify node-balanced-match
  node-binary-extensions node-brace-expansion node-braces node-browserslist node-cbor node-chalk node-chokidar
  node-ci-info node-clean-yaml-object node-cli-truncate node-cliui node-concordance node-currently-unhandled
  node-date-time node-debug node-del node-emittery node-escape-string-regexp node-esutils node-fill-range
  node-find-up node-fs.realpath node-glob node-glob-parent node-globby node-graceful-fs node-has-flag
  node-ignore node-ignore-by-default node-imurmurhash node-indent-string node-inflight node-inherits
  node-inquirer node-irregular-plurals node-is-binary-path node-is-extglob node-is-glob node-is-number
  node-is-path-cwd node-is-path-inside node-is-plain-object node-is-promise node-js-yaml node-load-json-file
  node-locate-path node-lodash node-lru-cache node-matcher node-md5-hex node-mem node-micromatch node-mimic-fn
  node-minimatch node-ms node-n3 node-normalize-path node-once node-p-limit node-p-locate node-p-map
  node-p-timeout node-parse-ms node-path-exists node-path-type node-plur node-pretty-ms node-readdirp
  node-resolve-cwd node-resolve-from node-rimraf node-semver node-signal-exit node-slash node-slice-ansi
  node-stack-utils node-string-width node-strip-ansi node-supports-color node-time-zone node-to-regex-range
  node-wrappy node-write-file-atomic node-y18n node-yargs node-yargs-parser
`.trim().split(/\s+/);
