// Fetches beside itself.
const { words } = await (await fetch("data.json")).json();
postMessage(`in a worker ${words}`);
