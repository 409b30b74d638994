// What jest-worker's threads do.
exports.hello = (name) => {
  console.log("says", name);
  return `hello ${name}`;
};
