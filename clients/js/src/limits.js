// The server's limits that a page has to know.
export const LIMITS = {
  operations: 200000, // on a pad
  characters: 4000000, // of a pad, with the erased ones
  comments: 10000, // operations that comment or resolve are among the others
  edit: 10000, // characters in one edit
  parts: 16, // of one edit
  comment: 2000, // characters
  entries: 100, // in one answer
};
