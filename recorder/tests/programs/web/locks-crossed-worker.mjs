// It asks for two locks, the second one while it has the first.
onmessage = async ({ data: [first, second] }) => {
  await navigator.locks.request(first, async () => {
    await navigator.locks.request(second, () => {});
  });
  postMessage("had both");
};
