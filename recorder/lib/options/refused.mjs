/** What was asked for can't be: a sentence says why. The command line ends with status 2 then. */
export class Refused extends Error {}

/** The name of an error by which a thread refuses what was asked for. */
export const REFUSED = "Refused";
