// Holds a lock for as long as the page wants, and says what becomes of it.
let release;
onmessage = async ({ data: { name, how = {} } }) => {
  if (name === undefined) return release();
  try {
    await navigator.locks.request(name, how, (lock) => {
      postMessage(lock === null ? "has missed" : `has ${lock.name} ${lock.mode}`);
      return lock === null ? undefined : new Promise((done) => { release = done; });
    });
    postMessage("has released");
  } catch (error) {
    postMessage(`fails: ${error.name}`);
  }
};
