// The statuses of the program, by the names and numbers of library/tamligub.h; a test compares both.

export const STATUS = {
  DONE: 0, REFUSALS: 1, USAGE: 2, BAD_SCRIPT: 3, UNREAD: 4, NO_ROOM: 5, NO_MEMORY: 6, TOO_LONG: 7, NOT_SEVEN: 8,
};
