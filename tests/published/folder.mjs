// Where the published code is: in a folder beside the repository's files, since none of it is committed.

import { tmpdir } from "node:os";
import { join } from "node:path";
import { pathToFileURL } from "node:url";

/** The folder that `fetch.mjs` fills: `SABSIM_PUBLISHED`, or one in the system's folder for what is temporary. */
export const FETCHED = pathToFileURL(`${process.env.SABSIM_PUBLISHED ?? join(tmpdir(), "published")}/`);

/** The folder in it with code whose bugs are mended. */
export const MENDED = new URL("mended/", FETCHED);
