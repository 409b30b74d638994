// The file system of a later SQLite: both of its halves, with its check of itself, in two workers of a page.

const worker = new Worker("sqlite-files.js?opfs-sanity-check#sqlite-now-worker.js");
await new Promise((done) => { worker.onmessage = done; });
close();
