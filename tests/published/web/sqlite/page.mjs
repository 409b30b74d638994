// SQLite's file system for browsers: both of its halves, with its check of itself, in two workers of a page.

const worker = new Worker("sqlite-files.js?opfs-sanity-check#sqlite-worker.js");
await new Promise((done) => { worker.onmessage = done; });
close();
