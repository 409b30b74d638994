// Which of some cases agents try: agents import this, and so no more than they need.

/** In this word of the first buffer, of 32 bits, agents find which case they try. */
export const CASE_WORD = 3;
