// Code of a function that is given `onceMore`: whether an object that nobody has any more is there just before garbage
// is collected, and after that.

export const WATCHING = `async (onceMore) => {
  const turn = () => new Promise((done) => setImmediate(done));
  const watched = new WeakRef({});
  await turn();
  for (let time = 1; time < 1_024; time += 1) onceMore();
  const before = watched.deref() !== undefined;
  await turn();
  onceMore();
  await turn();
  return [before, watched.deref() !== undefined];
}`;
