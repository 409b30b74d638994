// urllib3's streams for Python in a browser: a worker of the page gets a file by them.

const worker = new Worker("urllib3-worker.js");
await new Promise((done) => { worker.onmessage = done; });
close();
