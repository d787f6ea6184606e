"""The server's limits that a client has to know."""

#: Operations on a pad, comments among them.
OPERATIONS = 200_000
#: Characters of a pad, with the erased ones.
CHARACTERS = 4_000_000
#: Comments of a pad.
COMMENTS = 10_000
#: Characters of one edit, and its insertions and erasures.
EDIT = 10_000
PARTS = 16
#: Characters of a comment.
COMMENT = 2_000
#: Entries of one answer.
ENTRIES = 100
#: Seconds of a wait.
WAIT = 60
