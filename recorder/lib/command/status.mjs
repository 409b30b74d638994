// How the recorder's commands end.

export const EXIT_STATUS = Object.freeze({ NONE_FAILED: 0, SOME_FAILED: 1, REFUSED: 2, NOT_DONE: 3, NOT_ALL: 4 });
