// A program whose modules are compiled when they are required. @babel/register does that in a thread of its own.
process.env.BABEL_DISABLE_CACHE = "1";
require("../node_modules/@babel/register/lib/experimental-worker.js")({ babelrc: false, configFile: false });

const { sum } = require("./sum.js");
if (sum(1, 2) !== 3) throw new Error(`the sum is ${sum(1, 2)}`);
