// Adds two numbers.
exports.add = (one, other) => one + other;
