"""The command line: moments, settings, formats, options."""
import asyncio
import os
import signal
import subprocess
import tempfile
import unittest
from collections.abc import Callable
from datetime import datetime, timedelta, timezone
from html.parser import HTMLParser
from pathlib import Path
from unittest import mock

from pads import completion, options, settings, standard_input
from pads.colours import Colours
from pads.failure import Failure, Status
from pads.follow import _changed_lines as changed_lines
from pads.formats import Snapshot, written
from pads.moments import milliseconds
from vindrughe import PlacedComment

NOW = datetime(2026, 11, 27, 12, 0, tzinfo=timezone.utc)


class MomentsTest(unittest.TestCase):
    def test_forms(self) -> None:
        day = 24 * 3_600_000
        noon = round(NOW.timestamp() * 1000)
        cases = {
            "2h": noon - 2 * 3_600_000, "90m ago": noon - 90 * 60_000, "3d": noon - 3 * day, "5s": noon - 5_000,
            "2026-11-26T12:00Z": noon - day, "2026-11-27T13:00+01:00": noon, "2026-11-27 12:00:00+00:00": noon,
        }
        for text, want in cases.items():
            with self.subTest(text=text):
                self.assertEqual(milliseconds(text, NOW), want)

    def test_local_times(self) -> None:
        now = datetime.now().astimezone()
        local = datetime(2026, 1, 2, 3, 4).astimezone()
        self.assertEqual(milliseconds("2026-01-02T03:04", now), round(local.timestamp() * 1000))
        today = now.replace(hour=9, minute=5, second=0, microsecond=0)
        self.assertEqual(milliseconds("9:05", now), round(today.timestamp() * 1000))
        self.assertLess(abs(milliseconds("0s") - round((datetime.now() + timedelta()).timestamp() * 1000)), 5_000)

    def test_what_is_no_time(self) -> None:
        for text in ("", "yesterday", "25:00", "2026-13-01", "2h30", "-"):
            with self.subTest(text=text), self.assertRaises(Failure) as raised:
                milliseconds(text, NOW)
            self.assertEqual(raised.exception.status, Status.USAGE)


class SettingsTest(unittest.TestCase):
    def setUp(self) -> None:
        folder = tempfile.TemporaryDirectory()
        self.addCleanup(folder.cleanup)
        self.file = Path(folder.name) / "vindrughe"
        patch = mock.patch.dict(os.environ, {"XDG_CONFIG_HOME": folder.name})
        patch.start()
        self.addCleanup(patch.stop)

    def write(self, text: str, mode: int = 0o600) -> None:
        self.file.write_text(text, encoding="utf-8")
        self.file.chmod(mode)

    def test_the_first_server_is_taken_unless_another_is_named(self) -> None:
        self.write("[a]\nname = ann\ntoken = %t1\n[b]\naddress = tls://b\nname = bob\ntoken = t2\npeer = 77\npeer-token = p\nca = /ca\n")
        self.assertEqual(settings.read(None, {}), settings.Settings(settings.DEFAULT, "ann", "%t1"))
        want = settings.Settings("tls://b", "bob", "t2", "/ca", 77, "p")
        self.assertEqual(settings.read("b", {}), want)
        self.assertEqual(settings.read(None, {"PADS_SERVER": "b"}), want)
        self.assertEqual(settings.read(None, {"PADS_NAME": "cyd", "PADS_TOKEN": "t3", "PADS_ADDRESS": "ws://c/socket"}), settings.Settings("ws://c/socket", "cyd", "t3"))

    def test_a_file_that_others_may_read_is_refused(self) -> None:
        for mode in (0o640, 0o604, 0o644, 0o620):
            self.write("[a]\nname = ann\ntoken = t1\n", mode)
            with self.subTest(mode=mode), self.assertRaisesRegex(Failure, "chmod 600"):
                settings.read(None, {})

    def test_what_is_wrong_is_told(self) -> None:
        cases = {
            "": "no name and token", "[a]\nname = ann\n": "no name and token", "name = ann\n": "no section headers",
            "[a]\nname = ann\ntoken = t\ntokn = t\n": "'tokn'", "[a]\nname = ann\ntoken = t\npeer = x\n": "1 to 65535",
        }
        for text, part in cases.items():
            self.write(text)
            with self.subTest(text=text), self.assertRaisesRegex(Failure, part):
                settings.read(None, {})
        with self.assertRaisesRegex(Failure, "no server z"):
            settings.read("z", {})

    def test_what_is_written_is_read_and_only_by_its_owner(self) -> None:
        one, other = settings.Settings("tcp://a", "ann", "t%1"), settings.Settings("tcp://b", "bob", "t2", "/ca")
        settings.write("a", one)
        settings.write("b", other)
        settings.write("a", one)
        self.assertEqual((settings.read("a", {}), settings.read("b", {})), (one, other))
        self.assertEqual(self.file.stat().st_mode & 0o777, 0o600)
        self.assertNotIn("t2", repr(other))


class _Spans(HTMLParser):
    """The text of each span in a <pre>, and the tags that are open in the end."""

    def __init__(self) -> None:
        super().__init__()
        self.open: list[str] = []
        self.spans: list[tuple[str, str]] = []

    def handle_starttag(self, tag: str, attrs: list[tuple[str, str | None]]) -> None:
        if tag != "meta":
            self.open.append(tag)
        if tag == "span":
            self.spans.append((dict(attrs).get("title") or "", ""))

    def handle_endtag(self, tag: str) -> None:
        assert self.open.pop() == tag

    def handle_data(self, data: str) -> None:
        if self.open and self.open[-1] == "span" and "pre" in self.open:
            self.spans[-1] = (self.spans[-1][0], self.spans[-1][1] + data)


SNAPSHOT = Snapshot(
    "minutes", 7, "One <b>\ntwo & three", [("ann@1", 8), ("bob@1", 11)],
    [PlacedComment((1, 3), "cyd@2", 8, 3, "which\ntwo?", False), PlacedComment((1, 4), "ann@1", 19, 0, "gone", True)],
)


class FormatsTest(unittest.TestCase):
    def test_text_and_markdown(self) -> None:
        self.assertEqual(written(SNAPSHOT, "text"), SNAPSHOT.text)
        self.assertEqual(
            written(SNAPSHOT, "md"),
            "# minutes (revision 7)\n\n*ann@1, bob@1*\n\n<sup>ann</sup>One &lt;b>\n<sup>bob</sup>two[^1] &amp; three[^2]\n\n"
            "[^1]: **cyd**: “two”: which two?\n[^2]: **ann** (resolved): gone\n",
        )

    def test_html_has_all_words_and_no_other_tags(self) -> None:
        page = _Spans()
        page.feed(written(SNAPSHOT, "html"))
        self.assertEqual(page.open, [])
        words = [(author, text) for author, text in page.spans if text]
        self.assertEqual(words, [("ann", "One <b>\n"), ("bob", "two"), ("bob", " & three")])

    def test_a_name_of_two_servers_has_their_numbers(self) -> None:
        one = Snapshot("p", 1, "ab", [("ann@1", 1), ("ann@2", 1)], [])
        self.assertIn("<sup>ann@1</sup>a<sup>ann@2</sup>b", written(one, "md"))


class MarksTest(unittest.TestCase):
    def test_lines_that_have_changed(self) -> None:
        keep, insert, drop = "keep", "insert", "drop"
        runs = [("one\ntwo ", "a", keep), ("x", "b", insert), ("\nthree\n", "a", keep), ("new\nand ", "b", insert), ("four\n", "a", keep), ("gone\n", "a", drop), ("end", "a", keep)]
        marked = [(number, "".join(Colours("never").marked(run) for run in line)) for number, line in changed_lines(runs)]  # type: ignore[arg-type]
        self.assertEqual(marked, [(2, "two {+x+}"), (4, "{+new+}{+⏎+}"), (5, "{+and +}four"), (6, "[-gone-][-⏎-]end")])

    def test_colours_are_those_of_authors_and_end_with_the_line(self) -> None:
        on = Colours("always")
        text = on.marked(("a\nb", "ann@1", "insert"))
        self.assertEqual([line.endswith("\033[0m") for line in text.split("\n")], [True, True])
        self.assertEqual(on.author("ann@1", "x"), on.author("ann@1", "x"))
        self.assertEqual(Colours("never").author("ann@1", "x"), "x")


class StandardInputTest(unittest.TestCase):
    """What is read while asyncio runs, as the commands read it."""

    @staticmethod
    async def read(read: Callable[[], str]) -> str:
        with mock.patch("sys.stdin", mock.Mock(read=read)):
            return standard_input.read_text()

    @staticmethod
    def interrupted() -> str:
        """Somebody interrupts, and goes on to type."""
        os.kill(os.getpid(), signal.SIGINT)
        return "typed"

    def test_an_interrupt_ends_it_at_once(self) -> None:
        with self.assertRaises(KeyboardInterrupt):
            asyncio.run(self.read(self.interrupted))
        self.assertIs(signal.getsignal(signal.SIGINT), signal.default_int_handler)

    def test_an_interrupt_that_is_ignored_stays_so(self) -> None:
        before = signal.signal(signal.SIGINT, signal.SIG_IGN)
        self.addCleanup(signal.signal, signal.SIGINT, before)
        self.assertEqual(asyncio.run(self.read(self.interrupted)), "typed")


class OptionsTest(unittest.TestCase):
    def test_each_command_has_its_help(self) -> None:
        told = options.help_text()
        for command in options.COMMANDS:
            self.assertIn(f"  {command.name} ", told)
            text = options.help_of(command.name)
            for one in command.words:
                self.assertIn(one.meaning, text)

    def test_a_token_is_no_option(self) -> None:
        for words in (["list", "--token", "t"], ["--token", "t", "list"], ["show", "p", "--tok=t"]):
            with self.subTest(words=words), self.assertRaises(Failure) as raised:
                options.parse(words)
            self.assertEqual(raised.exception.status, Status.USAGE)

    def test_options_may_stand_anywhere(self) -> None:
        self.assertEqual(options.parse(["--json", "show", "p", "--rev", "3"]).rev, 3)
        self.assertEqual(options.parse(["append", "p", "one", "--json", "two"]).text, ["one", "two"])

    def test_what_is_no_text_is_refused(self) -> None:
        for words in (["append", "p", "caf\udce9"], ["comment", "p", "caf\udce9", "--on", "b"], ["mark", "p", "caf\udce9"]):
            with self.subTest(words=words), self.assertRaisesRegex(Failure, "argument TEXT: it is not UTF-8") as raised:
                options.parse(words)
            self.assertEqual(raised.exception.status, Status.USAGE)

    def test_bash_takes_the_completion(self) -> None:
        script = completion.bash()
        subprocess.run(["bash", "-n"], input=script, text=True, check=True)
        ask = 'COMP_WORDS=(pads {}) COMP_CWORD={}; _pads; echo "${{COMPREPLY[@]}}"'
        for words, number, want in (("ex", 1, "export"), ("clos", 1, "close"), ("export p --format m", 4, "md"), ("grant p bob wr", 4, "write"), ("show --au", 2, "--authors")):
            with self.subTest(words=words):
                names = "_pads_names() { :; }"
                done = subprocess.run(["bash", "-c", f"{script}\n{names}\n{ask.format(words, number)}"], capture_output=True, text=True, check=True)
                self.assertEqual(done.stdout.split(), [want])


if __name__ == "__main__":
    unittest.main()
