// Whether node was asked to run a file, or another file imports it.

import { pathToFileURL } from "node:url";
import { realUrl } from "../lib/processes/real-url.mjs";

/** @param {string} url of a module @returns {boolean} whether node was started with its file, or with a link to it */
export const isMain = (url) => realUrl(pathToFileURL(process.argv[1] ?? "").href) === url;
