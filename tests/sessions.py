"""Sessions of one connection: what an author and a peer are answered. The replies are those of the rules."""
from harness import Case

ARGS = "--stdin --replica 1"
WITH_PEERS = "--stdin --replica {} --accounts accounts"
ACCOUNTS = (("accounts", "author ann t1\nauthor bob t2\npeer 2 p2 h:1\npeer 300 p300 h:2\n"),)


def joined(lines):
    return "".join(line + "\n" for line in lines)


def solo(name, *exchanges):
    """The author solo alone on pad p of server 1: each request with its reply."""
    exchanges = [('{"do":"create","pad":"p"}', '{"now":0,"ok":true,"visit":1}'), *exchanges]
    return Case(f"session: {name}", ARGS, joined(asked for asked, _ in exchanges), joined(told for _, told in exchanges))


def insert(rev, at, text):
    return f'{{"do":"insert","pad":"p","rev":{rev},"at":{at},"text":"{text}"}}'


def delete(rev, at, length):
    return f'{{"do":"delete","pad":"p","rev":{rev},"at":{at},"len":{length}}}'


def edit(rev, *parts):
    return f'{{"do":"edit","pad":"p","rev":{rev},"parts":[{",".join(parts)}]}}'


def comment(rev, at, length, text):
    return f'{{"do":"comment","pad":"p","rev":{rev},"at":{at},"len":{length},"text":"{text}"}}'


def resolve(origin, number):
    return f'{{"do":"resolve","pad":"p","comment":[{origin},{number}]}}'


def read(what, rev=None):
    return f'{{"do":"{what}","pad":"p"' + ("}" if rev is None else f',"rev":{rev}}}')


def made(number, now, hidden=None):
    return ("{" if hidden is None else f'{{"hidden":{hidden},') + f'"name":[1,{number}],"now":{now},"ok":true}}'


def text(now, rev, shown):
    return f'{{"now":{now},"ok":true,"rev":{rev},"text":"{shown}"}}'


def refusal(code, name):
    return f'{{"code":{code},"error":"{name}","ok":false}}'


HELLO = (insert(0, 0, "hello"), made(1, 1))
NO_REVISION, OUT_OF_RANGE = refusal(320, "NoRevision"), refusal(321, "OutOfRange")
EMPTY, TOO_MUCH, NO_COMMENT = refusal(322, "Empty"), refusal(323, "TooMuch"), refusal(326, "NoComment")
X, LONG = '{"at":0,"text":"x"}', "x" * 10000


def shown_comment(at, length, resolved, now, rev):
    listed = f'[{{"at":{at},"author":"solo@1","len":{length},"name":[1,3],"resolved":{resolved},"text":"c"}}]'
    return f'{{"comments":{listed},"now":{now},"ok":true,"rev":{rev}}}'


AUTHORS = [
    solo("an insertion inside", HELLO, (insert(1, 2, "XY"), made(2, 2)), (read("text"), text(2, 2, "heXYllo"))),
    solo(
        "an insertion at an old revision",
        HELLO,
        (insert(1, 2, "XY"), made(2, 2)),
        (insert(1, 2, "Z"), made(3, 3)),
        (read("text"), text(3, 3, "heZXYllo")),
        (read("text", 1), text(3, 1, "hello")),
    ),
    solo(
        "a comment, where its words are erased, and its resolution",
        HELLO,
        (insert(1, 2, "XY"), made(2, 2)),
        (comment(1, 0, 5, "c"), made(3, 3)),
        (read("comments"), shown_comment(0, 7, "false", 3, 3)),
        (delete(1, 0, 5), made(4, 4, 5)),
        (read("comments"), shown_comment(0, 2, "false", 4, 4)),
        (read("comments", 3), shown_comment(0, 7, "false", 4, 3)),
        (resolve(1, 3), made(5, 5)),
        (read("comments"), shown_comment(0, 2, "true", 5, 5)),
        (read("comments", 4), shown_comment(0, 2, "false", 5, 4)),
        (resolve(1, 1), NO_COMMENT),
    ),
    solo(
        "revisions, places and sizes are refused in order",
        (insert(0, 0, "abc"), made(1, 1)),
        (insert(2, 0, "x"), NO_REVISION),
        (insert(1, 4, "x"), OUT_OF_RANGE),
        (delete(1, 2, 2), OUT_OF_RANGE),
        (delete(1, 1, 0), EMPTY),
        (insert(1, 0, ""), EMPTY),
        (insert(1, 0, LONG + "x"), TOO_MUCH),
        (insert(1, 4, LONG + "x"), OUT_OF_RANGE),
        (insert(1, 0, LONG), made(2, 2)),
        ('{"do":"revs","pad":"p"}', '{"cells":10003,"length":10003,"now":2,"ok":true}'),
        (delete(2, 0, 10001), TOO_MUCH),
        (delete(2, 0, 10000), made(3, 3, 10000)),
        ('{"do":"revs","pad":"p"}', '{"cells":10003,"length":3,"now":3,"ok":true}'),
    ),
    solo("a character of four bytes is one", (insert(0, 0, "a😀b"), made(1, 1)), (delete(1, 1, 1), made(2, 2, 1)), (read("text"), text(2, 2, "ab"))),
    solo(
        "several changes at once",
        HELLO,
        (edit(1, '{"at":1,"len":3}', '{"at":4,"text":"ey"}'), made(2, 2, 3)),
        (read("text"), text(2, 2, "heyo")),
        (read("text", 1), text(2, 1, "hello")),
    ),
    solo(
        "two insertions at one place: the later one comes first",
        HELLO,
        (edit(1, '{"at":5,"text":"A"}', '{"at":5,"text":"B"}'), made(2, 2, 0)),
        (read("text"), text(2, 2, "helloBA")),
    ),
    solo(
        "changes are refused together",
        HELLO,
        (edit(1), EMPTY),
        (edit(1, *[X] * 17), TOO_MUCH),
        (edit(1, '{"at":0,"text":""}', '{"at":9,"text":"x"}'), OUT_OF_RANGE),
        (edit(1, f'{{"at":0,"text":"{LONG[:5000]}"}}', f'{{"at":0,"text":"{LONG[:5001]}"}}'), TOO_MUCH),
        (read("text"), text(1, 1, "hello")),
    ),
    solo(
        "a caret moves with its character",
        HELLO,
        ('{"do":"caret","pad":"p","rev":1,"at":2}', '{"now":1,"ok":true}'),
        (insert(1, 0, "XY"), made(2, 2)),
        (read("who"), '{"now":2,"ok":true,"who":[{"author":"solo@1","caret":4,"visit":1}]}'),
        (delete(2, 0, 7), made(3, 3, 7)),
        (read("who"), '{"now":3,"ok":true,"who":[{"author":"solo@1","caret":0,"visit":1}]}'),
    ),
    solo(
        "joining twice, leaving, and a name that is none",
        ('{"do":"join","pad":"p"}', refusal(311, "Joined")),
        ('{"do":"create","pad":"p"}', refusal(301, "PadExists")),
        ('{"do":"leave","pad":"p"}', '{"now":0,"ok":true}'),
        (read("text"), refusal(310, "NotJoined")),
        ('{"do":"join","pad":"p"}', '{"now":0,"ok":true,"visit":2}'),
        ('{"do":"create","pad":"P"}', refusal(303, "BadName")),
        ('{"do":"join","pad":"q"}', refusal(300, "NoPad")),
        ('{"do":"hello","name":"solo","token":"solo"}', refusal(202, "HaveSession")),
        ('{"do":"vector","pad":"p"}', refusal(404, "NotPeer")),
    ),
    solo(
        "entries from 0, to the last, past it, and too many",
        HELLO,
        ('{"do":"entries","pad":"p","from":0,"count":1}', NO_REVISION),
        ('{"do":"entries","pad":"p","from":1,"count":100}', '{"entries":[{"author":"solo@1","kind":"insert","name":[1,1],"rev":1}],"now":1,"ok":true}'),
        ('{"do":"entries","pad":"p","from":2,"count":1}', '{"entries":[],"now":1,"ok":true}'),
        ('{"do":"entries","pad":"p","from":3,"count":1}', NO_REVISION),
        ('{"do":"entries","pad":"p","from":1,"count":0}', EMPTY),
        ('{"do":"entries","pad":"p","from":1,"count":101}', TOO_MUCH),
    ),
]

OLD = Case(
    "session: an author's token is none of a peer's",
    WITH_PEERS.format(1),
    '{"do":"peer","number":1,"token":"t1"}\n{"do":"hello","name":"ann","token":"p2"}\n',
    joined([refusal(201, "BadToken")] * 2),
    files=ACCOUNTS,
)

TESTS = [case.test() for case in [*AUTHORS, OLD]]
