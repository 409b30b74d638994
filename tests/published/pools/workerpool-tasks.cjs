// What workerpool's threads do.
const { WORKERPOOL } = process.env;
require(WORKERPOOL).worker({
  double: (number) => 2 * number,
  fails: () => {
    throw new Error("no");
  },
});
