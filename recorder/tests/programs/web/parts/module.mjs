export const word = import.meta.url.split("/").at(-1);
