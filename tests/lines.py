"""Lines: how they end, how long they are, which of them are JSON, and which JSON is a request."""
from harness import Case

ARGS = "--stdin --replica 1"
CREATE = '{"do":"create","pad":"p"}\n'
CREATED = '{"now":0,"ok":true,"visit":1}\n'
REVS = '{"do":"revs","pad":"p"}'
NONE = '{"cells":0,"length":0,"now":0,"ok":true}\n'
TOO_LONG = '{"code":100,"error":"TooLong","ok":false}\n'
NOT_JSON = '{"code":101,"error":"NotJson","ok":false}\n'
NOT_REQUEST = '{"code":102,"error":"NotRequest","ok":false}\n'
LONGEST = 8388608


def on_a_pad(name, asked, answered, **more):
    """What is answered to these bytes on a pad that is there, and that the session goes on."""
    asked = asked.encode() if isinstance(asked, str) else asked
    return Case(f"line: {name}", ARGS, CREATE.encode() + asked, CREATED + answered, **more)


def refused(name, line, refusal):
    """A refused line, and the next one is served."""
    line = line.encode() if isinstance(line, str) else line
    return on_a_pad(name, line + b"\n" + REVS.encode() + b"\n", refusal + NONE)


def padded(length):
    """A request of this many bytes."""
    return REVS[:-1] + " " * (length - len(REVS)) + "}"


def nested(depth):
    """A request with this many arrays and objects inside one another, its own among them."""
    return REVS[:-1] + ',"x":' + "[" * (depth - 1) + "]" * (depth - 1) + "}"


CASES = [
    Case("line: no input", ARGS),
    Case("line: empty lines alone", ARGS, "\n\r\n\n"),
    on_a_pad("CR LF", REVS + "\r\n", NONE),
    on_a_pad("an empty line has no reply", "\n\r\n" + REVS + "\n", NONE),
    on_a_pad("the last one without LF", REVS, NONE),
    on_a_pad("the last one without LF, its text after an unknown field", '{"do":"text","pad":"p","x":[]}', '{"now":0,"ok":true,"rev":0,"text":""}\n'),
    on_a_pad("the last one, a lone CR", "\r", NOT_JSON),
    on_a_pad("the last one with a CR and no LF", REVS + "\r", NONE),
    refused("spaces", "   ", NOT_JSON),
    refused("CR CR LF", "\r\r", NOT_JSON),
    refused("an object that does not end", '{"do":"text"', NOT_JSON),
    refused("two values", "{} {}", NOT_JSON),
    refused("bytes that are not UTF-8", b'{"do":"create","pad":"\xff"}', NOT_JSON),
    refused("half a surrogate pair", '{"do":"create","pad":"\\ud800"}', NOT_JSON),
    refused("a control in a string", '{"do":"create","pad":"\t"}', NOT_JSON),
    refused("a byte order mark", "\ufeff" + REVS, NOT_JSON),
    refused("a thousand brackets", "[" * 1000, NOT_JSON),
    refused("a number past all floats", REVS[:-1] + ',"x":1e999}', NOT_JSON),
    refused("128 deep", nested(128), NOT_JSON),
    on_a_pad("127 deep", nested(127) + "\n", NONE),
    refused("no object", "[]", NOT_REQUEST),
    refused("a number", "7", NOT_REQUEST),
    refused("an empty object", "{}", NOT_REQUEST),
    refused("do is no text", '{"do":7}', NOT_REQUEST),
    refused("an unknown do", '{"do":"destroy","pad":"p"}', NOT_REQUEST),
    refused("a missing field", '{"do":"insert","pad":"p","rev":0,"at":0}', NOT_REQUEST),
    *[
        refused(f"at is {number}", f'{{"do":"insert","pad":"p","rev":0,"at":{number},"text":"x"}}', NOT_REQUEST)
        for number in ["1.0", "-1", "-0", "1e2", "18446744073709551616", '"0"', "null"]
    ],
    refused(
        "the greatest number",
        '{"do":"insert","pad":"p","rev":0,"at":18446744073709551615,"text":"x"}',
        '{"code":321,"error":"OutOfRange","ok":false}\n',
    ),
    on_a_pad("a key twice: the last one counts", '{"do":"text","pad":"q","do":"revs","pad":"p"}\n', NONE),
    on_a_pad("a key by an escape", '{"d\\u006f":"revs","pad":"p"}\n', NONE),
    on_a_pad("the longest", padded(LONGEST) + "\n" + REVS + "\n", NONE * 2),
    on_a_pad("the longest, without LF", padded(LONGEST), NONE),
    on_a_pad("too long", padded(LONGEST + 1) + "\n" + REVS + "\n", TOO_LONG),
    on_a_pad("too long, without LF", padded(LONGEST + 1), TOO_LONG),
    on_a_pad("the longest and a CR", padded(LONGEST) + "\r\n" + REVS + "\n", TOO_LONG),
    on_a_pad("too long, and no JSON", "x" * (LONGEST + 1) + "\n", TOO_LONG),
]

TESTS = [case.test() for case in CASES]
