"""A pad from its operations, by the rules of docs/DEFINITIONS.md and by no code of this repository's crates.

An operation is JSON, as servers exchange it and as `pad_store export` prints it.
"""


def parts_of(op):
    return op["parts"] if op["kind"] == "edit" else [op]


def stamps_from(first, count):
    """The stamps of a run: rising counters of one server."""
    counter, origin = first
    return [(counter + number, origin) for number in range(count)]


def characters_of(ops):
    """The visible characters, each with its author, in preorder: of what stands behind one character, the newest first."""
    under, letters, erased = {}, {}, set()
    for op in ops:
        author = f"{op['author']}@{op['name'][0]}"
        for part in parts_of(op):
            if part["kind"] == "insert":
                before = tuple(part["after"]) if part["after"] else None
                for stamp, letter in zip(stamps_from(part["first"], len(part["text"])), part["text"]):
                    under.setdefault(before, []).append(stamp)
                    letters[stamp] = letter, author
                    before = stamp
            elif part["kind"] == "delete":
                for counter, origin, count in part["spans"]:
                    erased.update(stamps_from((counter, origin), count))
    shown, waiting = [], sorted(under.get(None, []))
    while waiting:
        stamp = waiting.pop()
        if stamp not in erased:
            shown.append(letters[stamp])
        waiting += sorted(under.get(stamp, []))
    return shown


def text_of(ops):
    return "".join(letter for letter, _ in characters_of(ops))


def runs_of(ops):
    """The authors of the text, as [author, how many characters]."""
    runs = []
    for _, author in characters_of(ops):
        if runs and runs[-1][0] == author:
            runs[-1][1] += 1
        else:
            runs.append([author, 1])
    return runs
