// The URL by which node's loader knows a file: that of the file itself, if a link leads to it.

import { realpathSync } from "node:fs";
import { basename, dirname, join } from "node:path";
import { fileURLToPath, pathToFileURL } from "node:url";

/** By this option node's loader keeps the paths of links. */
const KEEPS_LINKS = /(?:^| )--preserve-symlinks(?: |$)/;

const keepsLinks = KEEPS_LINKS.test(`${process.execArgv.join(" ")} ${process.env.NODE_OPTIONS ?? ""}`);

/** @param {string} path @returns {string} of a file that isn't there: its path from the real folder that is there */
function realPath(path) {
  try {
    return realpathSync(path);
  } catch {
    const folder = dirname(path);
    return folder === path ? path : join(realPath(folder), basename(path));
  }
}

/**
 * @param {string} url
 * @returns {string} with the same search and fragment; the URL itself if it is of no file
 */
export function realUrl(url) {
  if (keepsLinks || !url.startsWith("file:")) return url;
  try {
    const [, rest = ""] = /^[^?#]*(.*)$/.exec(url) ?? [];
    return `${pathToFileURL(realPath(fileURLToPath(url))).href}${rest}`;
  } catch {
    return url;
  }
}
