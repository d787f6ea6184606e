"""The command line of the server: what it takes, what it refuses, and the status."""
from harness import CLOSED, FULL, Case, Has, Starts

CREATE = '{"do":"create","pad":"p"}\n'
CREATED = '{"now":0,"ok":true,"visit":1}\n'
INSERT = '{"do":"insert","pad":"p","rev":0,"at":0,"text":"hello"}\n'
NO_SLOT = '{"code":302,"error":"NoSlot","ok":false}\n'
NO_PAD = '{"code":300,"error":"NoPad","ok":false}\n'
USAGE = """Usage: pad_server --stdin --replica <N> [--accounts <PATH>] [--cells <N>] [--present <N>]
       pad_server --listen <ADDR> --replica <N> --accounts <PATH> [OPTIONS]
"""
PRESENT_HELP = "How many visits may be present on a pad at once, 1 to 1,024 [default: 64]"
OPTIONS = Has(USAGE, "--present <N>", PRESENT_HELP, "--workers <N>", "--clients <N>", "--idle <SECONDS>", "--store <DIR>", "--new-replica", "--guests", "--help")


def refused(name, args, *parts):
    """A command line that asks for nothing that the server does: status 2, a message that names the mistake, and nothing
    is served."""
    return Case(name, args, stdin=CREATE, status=2, stderr=Starts("pad_server: ", *parts))


def first_name(replica):
    return f'{{"name":[{replica},1],"now":1,"ok":true}}\n'


def numbered(replica):
    """A server of this number gives it to its operations."""
    return Case(f"replica {replica}", f"--stdin --replica {replica}", CREATE + INSERT, CREATED + first_name(replica))


def creates(count):
    return "".join(f'{{"do":"create","pad":"p{number}"}}\n' for number in range(count))


def rooms(name, args, count):
    """There is room for so many pads and no more; a pad that was created stays."""
    asked = creates(count + 1) + '{"do":"join","pad":"none"}\n{"do":"text","pad":"p0"}\n'
    text = '{"now":0,"ok":true,"rev":0,"text":""}\n'
    return Case(name, args, asked, CREATED * count + NO_SLOT + NO_PAD + text)


CASES = [
    Case("help", "--help", stdout=OPTIONS),
    Case("help by its short name", "-h", stdout=OPTIONS),
    Case("version", "--version", stdout="pad_server 0.1.0\n"),
    Case("version by its short name, and nothing else is asked for", "-V --stdin --replica 1", stdout="pad_server 0.1.0\n"),
    Case("version that cannot be printed", "--version", status=1, to=FULL),
    Case("help that cannot be printed", "--help", status=1, to=FULL),
    refused("no words", "", "required", "--replica <N>", USAGE),
    refused("no --replica", "--stdin", "required", "--replica <N>", USAGE),
    refused("neither --stdin nor --listen", "--replica 1", "either --stdin or --listen <ADDR> is needed, and not both\n"),
    refused("both --stdin and --listen", "--stdin --listen 127.0.0.1:0 --replica 1", "either --stdin or --listen <ADDR> is needed, and not both\n"),
    refused("--listen without accounts", "--listen 127.0.0.1:0 --replica 1", "--listen <ADDR> needs --accounts <PATH>\n"),
    refused("--store with --stdin", "--stdin --replica 1 --store s", "--store <DIR> needs --listen <ADDR>\n"),
    refused("--idle with --stdin", "--stdin --replica 1 --idle 5", "--idle <SECONDS> needs --listen <ADDR>\n"),
    refused("--new-replica with --stdin", "--stdin --replica 1 --new-replica", "--new-replica needs --listen <ADDR>\n"),
    refused("--guests with --stdin", "--stdin --replica 1 --guests", "--guests needs --listen <ADDR>\n"),
    refused("--guests with --stdin and accounts", "--stdin --replica 1 --accounts a --guests", "--guests needs --listen <ADDR>\n"),
    refused("--guests without accounts", "--listen 127.0.0.1:0 --replica 1 --guests", "--listen <ADDR> needs --accounts <PATH>\n"),
    refused("--guests with a value", "--listen 127.0.0.1:0 --replica 1 --accounts a --guests=yes", "--guests"),
    refused("--guests twice", "--listen 127.0.0.1:0 --replica 1 --accounts a --guests --guests", "--guests"),
    refused("--store and --idle with --stdin", "--stdin --replica 1 --idle 5 --store s", "--store <DIR> needs --listen <ADDR>\n"),
    refused("--idle with neither", "--replica 1 --idle 5", "either --stdin or --listen <ADDR> is needed"),
    refused("an unknown option", "--stdin --replica 1 --colour", "--colour"),
    refused("an unknown word", "--stdin --replica 1 serve", "serve"),
    refused("--stdin twice", "--stdin --stdin --replica 1", "--stdin"),
    refused("--stdin with a value", "--stdin=yes --replica 1", "--stdin"),
    refused("--replica twice", "--stdin --replica 1 --replica 2", "--replica"),
    refused("--cells twice", "--stdin --replica 1 --cells 1 --cells 2", "--cells"),
    refused("--present twice", "--stdin --replica 1 --present 1 --present 2", "--present"),
    *[refused(f"--idle {text}", f"--stdin --replica 1 --idle={text}", "--idle") for text in ["0", "-1", "x", ""]],
    *[refused(f"--workers {text}", f"--stdin --replica 1 --workers={text}", "--workers") for text in ["0", "64", "x"]],
    *[refused(f"--connections {text}", f"--stdin --replica 1 --connections={text}", "--connections") for text in ["0", "x"]],
    *[refused(f"--{name} without a value", f"--stdin --replica 1 --{name}", f"--{name}") for name in ["listen", "store", "idle", "workers", "clients"]],
    refused("--new-replica twice", "--listen 127.0.0.1:0 --replica 1 --new-replica --new-replica", "--new-replica"),
    refused("--accounts twice", "--stdin --replica 1 --accounts a --accounts b", "--accounts"),
    refused("--replica without a number", "--stdin --replica", "--replica"),
    refused("--cells without a number", "--stdin --replica 1 --cells", "--cells"),
    refused("--present without a number", "--stdin --replica 1 --present", "--present"),
    refused("--accounts without a path", "--stdin --replica 1 --accounts", "--accounts"),
    *[
        refused(f"replica {text or 'of no digits'}", f"--stdin --replica={text}", "--replica")
        for text in ["0", "65536", "70000", "-1", "1.0", "one", "0x1", "18446744073709551617", ""]
    ],
    *[refused(f"cells {text}", f"--stdin --replica 1 --cells={text}", "--cells") for text in ["0", "131073", "-1", "two", "4294967297"]],
    *[refused(f"present {text}", f"--stdin --replica 1 --present={text}", "--present") for text in ["0", "1025", "-1", "two", "4294967297"]],
    *[Case(f"present {count}", f"--stdin --replica 1 --present {count}", CREATE, CREATED) for count in [1, 64, 1024]],
    Case("--workers, --clients and --connections change nothing with --stdin", "--stdin --replica 1 --workers 2 --clients 1 --connections 1", CREATE, CREATED),
    Case(
        "an address without a host",
        "--listen 7878 --replica 1 --accounts accounts",
        status=1,
        stderr="pad_server: cannot listen at 7878: HOST:PORT is needed, such as 127.0.0.1:7878\n",
        files=(("accounts", "author ann a-long-enough-token\n"),),
    ),
    numbered(1),
    numbered(255),
    numbered(300),
    numbered(65535),
    Case("replica by an equals sign", "--stdin --replica=7", CREATE + INSERT, CREATED + first_name(7)),
    Case("options in another order", "--cells 1 --replica 9 --stdin", CREATE + INSERT, CREATED + first_name(9)),
    rooms("cells 1", "--stdin --replica 1 --cells 1", 1),
    rooms("cells 2", "--stdin --replica 1 --cells 2", 2),
    rooms("cells 64", "--stdin --replica 1 --cells 64", 64),
    rooms("cells 65", "--stdin --replica 1 --cells 65", 65),
    rooms("cells 4096", "--stdin --replica 1 --cells 4096", 4096),
    rooms("no --cells", "--stdin --replica 1", 64),
    Case("an unknown word, standard error closed", "--wrong", status=2, errors_to=CLOSED),
    Case("an unknown word, standard error full", "--wrong", status=2, errors_to=FULL),
    Case("replica 0, standard error closed", "--stdin --replica 0", status=2, errors_to=CLOSED),
]

TESTS = [case.test() for case in CASES]
