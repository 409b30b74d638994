// The packages of Debian's that @babel/register needs to compile modules: some others that it depends on are never
// loaded.

export const PACKAGES = `
  node-ampproject-remapping node-babel7 node-browserslist node-caniuse-lite node-chalk node-clone-deep
  node-commondir node-convert-source-map node-debug node-electron-to-chromium node-find-cache-dir node-find-up
  node-globals node-has-flag node-is-plain-object node-js-tokens node-jsesc node-kind-of node-lru-cache
  node-make-dir node-ms node-pkg-dir node-semver node-source-map node-source-map-support node-supports-color
  node-to-fast-properties
`.trim().split(/\s+/);
