// It is CommonJS with a named export.
console.log("third");
exports.name = "third";
