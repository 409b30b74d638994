// What AVA has for its plugin for ESLint: it asks a thread of its own for what the tests of three projects are.
const { load } = require("../node_modules/ava/entrypoints/eslint-plugin-helper.cjs");

for (const name of ["one", "two", "three"]) {
  const { isTest } = load(__dirname, { files: [`${name}/*.js`] }).classifyFile(`${__dirname}/${name}/a.js`);
  if (!isTest) throw new Error(`${name}/a.js is no test`);
}
