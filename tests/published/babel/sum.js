// Adds numbers up.
const { add } = require("./add.js");
exports.sum = (...numbers) => numbers.reduce(add);
