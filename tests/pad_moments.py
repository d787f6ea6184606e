"""pad_store by moments: the revision, the operations and the log at a date or a time, and what is no moment."""
from sample_pad import AT, EXPORT, FIRST, LOG, OPERATIONS, TEXTS, VALUES, lines_of, program, refused

# Moments as they are given, each with the last revision that was made not later. The operations were made at 22:00:01,
# 22:01:02 and 23:02:03 UTC on 23 November 2026, and at 22:00:00 and 22:00:01 on the next day.
MOMENTS = [
    ("1970-01-01", 0),
    ("2026-11-23", 0),
    ("2026-11-23T22:00:00.999Z", 0),
    ("2026-11-23T22:00:01Z", 1),
    ("'2026-11-23 22:01'", 1),
    ("2026-11-23t22:01:01.999", 1),
    ("2026-11-23T22:01:02", 2),
    ("2026-11-24T00:02:02+01:00", 2),
    ("2026-11-24T00:02:03+01:00", 3),
    ("'2026-11-23 17:32:02.5-05:30'", 2),
    ("'2026-11-23 17:32:03-05:30'", 3),
    ("2026-11-24", 3),
    ("20261124", 3),
    ("'2026-11-24 22:00'", 4),
    ("'2026-11-24 22:00:01z'", 5),
    ("9999-12-30", 5),
]
NO_MOMENTS = [
    "''", "yesterday", "20:00", "2026-11", "2026-13-01", "2026-02-29", "'2026-11-24 24:00'", "'2026-11-24 20:00 UTC'",
    "'2026-11-24 20:00[Europe/Berlin]'", "2026-11-24T20:00+01:00[Europe/Berlin]", "2026-11-24[UTC]", "2026-11-24T20:00+26:00",
    "1969-12-31", "1969-12-31T23:59:59.999Z", "1970-01-01T00:00+00:01", "10000-01-01", "9999-12-31T23:59Z",
    "1795471201",
]
# The first operation half a second later, and the second one at an earlier time, as of a clock that went back.
HALF = b"".join(lines_of([*VALUES[:FIRST], {**OPERATIONS[0], "ms": 500}, *OPERATIONS[1:]])[0])
BACK = b"".join(lines_of([*VALUES[: FIRST + 1], {**OPERATIONS[1], "at": AT - 60}])[0])

CASES = [
    *(
        refused(f"{command} {text}, which is no moment", f"{command} {text}", "a moment is a date from 1970 on, as 2026-12-09, '2026-12-09 20:00' or 2026-12-09T20:00:00+01:00\n")
        for text in NO_MOMENTS
        for command in ["show p.pad --at", "export p.pad --at", "log p.pad --since", "log p.pad --since 2026-11-24 --until"]
    ),
    *(
        program(f"the revision at {moment}", f"show p.pad --at {moment} --markdown", stdout=f"# p\n\nRevision {rev}\n\n{TEXTS[rev]}\n")
        for moment, rev in MOMENTS
    ),
    program("the text at a moment", "show p.pad --at '2026-11-23 22:01'", stdout="hello"),
    program("the authors at a moment", "show p.pad --authors --at '2026-11-23 22:01'", stdout='ann@1 "hello"\n'),
    *(
        program(f"a part of a second, {moment}", f"show p.pad --at 2026-11-23T22:00:{moment}Z", [("p.pad", HALF)], stdout=text)
        for moment, text in [("01", ""), ("01.499", ""), ("01.4999", ""), ("01.5", "hello"), ("02", "hello")]
    ),
    *(
        program(f"a clock that went back, {moment}", f"show p.pad --at 2026-11-23T{moment}Z", [("p.pad", BACK)], stdout=text)
        for moment, text in [("21:59:00", ""), ("22:00:00", ""), ("22:00:01", "ho")]
    ),
    *(
        program(f"the log with {option}", f"log p.pad {option}", stdout="".join(lines))
        for option, lines in [
            ("--since 2026-11-23T22:01:02Z", LOG[1:]),
            ("--since 2026-11-23T22:01:02.001Z", LOG[2:]),
            ("--since 2026-11-24", LOG[3:]),
            ("--until 2026-11-23T22:01:02Z", LOG[:2]),
            ("--until 2026-11-23T22:01:01.999Z", LOG[:1]),
            ("--until 2026-11-23", []),
            ("--since '2026-11-23 22:01' --until 2026-11-24", LOG[1:3]),
            ("--since 2026-11-24 --until 2026-11-23", []),
            ("--by ann --since '2026-11-23 22:01' --until 2026-11-24", LOG[1:2]),
            ("--from 4 --by ann --until '2026-11-24 22:00'", LOG[3:4]),
            ("--from 2 --by bob", LOG[2:3]),
            ("--from 4 --by bob", []),
        ]
    ),
    *(
        program(f"what came and went, {words}", f"diff p.pad {words}", stdout="h[-ell-]{+ey+}o\n")
        for words in ["2026-11-23T22:00:01Z 2026-11-24", "1 2026-11-24", "'2026-11-23 22:01' 3"]
    ),
    program("nothing came or went within a minute", "diff p.pad '2026-11-23 22:00:01' '2026-11-23 22:01'", stdout="hello\n"),
    program("a date without dashes is a revision", "diff p.pad 1 20261124", status=1, stderr="pad_store: p.pad: 320 NoRevision\n"),
    *(
        program(f"the operations until {moment}", f"export p.pad --at {moment}", stdout=b"".join(EXPORT[:rev]))
        for moment, rev in MOMENTS
    ),
]

TESTS = [case.test() for case in CASES]
