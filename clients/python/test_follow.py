"""Tests of bossctl feed and follow, with a script in the place of the program: python3 -m unittest, in this folder. What comes of them with
the program itself tools/standby tries."""

import contextlib
import fcntl
import io
import os
import signal
import subprocess
import sys
import tempfile
import time
import unittest
from typing import Any, Callable
from unittest import mock

from bossd.ctl import _follow, _main, main
from bossd.ctl._program import ENDING, Fault, Ran, digest_of, events_in, status_of

HERE = os.path.dirname(os.path.abspath(__file__))
DIGEST, OTHER = "a" * 64, "b" * 64
# What the program says, by docs/FORMATS.md and docs/OPERATIONS.md.
CHECKED = "events 2 now 1000 leases 1 pending 0\n"
EVENT_1, EVENT_2 = b"event 1 0100000000000000000161", b"event 2 0200000000000003e800"
# For how long what has to come is waited for; a busy machine takes its time.
SECONDS = 60
WORDS = _follow.Words("plant.toml", "standby", 5, ["ssh", "building"])
ANEW = "remove standby and standby.b, and follow from the beginning"


class Folder(unittest.TestCase):
    def setUp(self) -> None:
        folder = tempfile.TemporaryDirectory()
        self.addCleanup(folder.cleanup)
        self.folder = folder.name

    def place(self, name: str) -> str:
        return os.path.join(self.folder, name)

    def file(self, name: str, text: str) -> str:
        with open(self.place(name), "w") as file:
            file.write(text)
        return self.place(name)

    def script(self, name: str, text: str) -> str:
        path = self.file(name, "#!/bin/sh\n" + text)
        os.chmod(path, 0o755)
        return path

    def text(self, name: str) -> str:
        with open(self.place(name)) as file:
            return file.read()

    def bossd(self, **jobs: str) -> str:
        """A program whose jobs are these lines of a shell. It tells the digest of a catalogue by itself."""
        cases = "".join(f"{job}) {lines};;\n" for job, lines in jobs.items())
        # A check whose journal is none of the test's asks for a digest.
        return self.script("bossd", f'case "$1,$3" in check,*none.*) echo "journal catalogue {"3" * 64} {DIGEST}"; exit 4;; esac\n'
                                    f'case "$1" in\n{cases}*) exit 99;; esac\n')


class Words(unittest.TestCase):
    """What is said of faulty words, and that the words behind the command's name are nobody's options."""

    def ended(self, *words: str) -> "tuple[int, str]":
        said = io.StringIO()
        with contextlib.redirect_stderr(said), mock.patch.object(ENDING, "by"):
            return main(words), said.getvalue()

    def test_of_feed(self) -> None:
        shown = "bossd-feed: say of which journal, and from where: bossd-feed CATALOGUE JOURNAL FROM [DIGEST]\n"
        for words in (["plant.toml", "journal"], ["plant.toml", "journal", "0", "-", "more"], ["plant.toml", "journal", "0", "--json", "-"]):
            self.assertEqual(self.ended("feed", *words), (2, shown))
        for start in ("x", "-1", "", "+1", "1 2", "/etc/passw?", "\u0663"):
            self.assertEqual(self.ended("feed", "plant.toml", "journal", start), (2, "bossd-feed: FROM is a number of events\n"), start)

    def test_of_follow(self) -> None:
        shown = "bossd-follow: say what follows what: bossd-follow CATALOGUE JOURNAL SECONDS COMMAND..\n"
        self.assertEqual(self.ended("follow", "plant.toml"), (2, shown))
        self.assertEqual(self.ended("follow", "plant.toml", "standby", "5"), (2, shown))
        for every in ("soon", "", "-1", "1.5"):
            self.assertEqual(self.ended("follow", "plant.toml", "standby", every, "ssh"),
                             (2, "bossd-follow: SECONDS is a number, or the word once\n"), every)

    def test_words_are_as_they_stand(self) -> None:
        given = ["plant.toml", "standby", "5", "ssh", "-o", "BatchMode=yes", "--", "--server", "building", "--p", "-h", ""]
        with mock.patch("bossd.ctl.follow", return_value=7) as follow:
            self.assertEqual(main(["follow", *given]), 7)
        follow.assert_called_once_with(given)
        # Behind an option of bossctl they are looked at by what reads those.
        self.assertEqual(_main.parser_of().parse_args(["--json", "feed", "plant.toml", "-h"]).plain, ["plant.toml", "-h"])

    def test_numbers_of_the_environment(self) -> None:
        with mock.patch.dict(os.environ, {"TRIES": "often"}):
            self.assertEqual(self.ended("feed", "plant.toml"), (2, "bossd-feed: TRIES in the environment is no number: often\n"))


class Lines(unittest.TestCase):
    def test_statuses(self) -> None:
        # A shell says 128 and the number of the signal: 9 is SIGKILL, 15 SIGTERM.
        self.assertEqual([status_of(ended) for ended in (0, 5, -9, -15)], [0, 5, 137, 143])

    def test_events(self) -> None:
        for told, events in ((CHECKED, 2), ("standby " + CHECKED, 2), ("journal new\n", 0), ("", 0), ("standby gap 3 5\n", 0)):
            self.assertEqual(events_in(told), events, told)


class Advice(unittest.TestCase):
    """The lines of the table in docs/OPERATIONS.md, Watch it."""

    def test_each_end(self) -> None:
        at_fault = "no-drivers"
        other = f"journal catalogue {DIGEST} {OTHER}"
        for status, told, advice in (
                (3, at_fault, "the catalogue plant.toml is refused (no-drivers): bring that of the source"),
                (3, "", "the catalogue plant.toml is refused (no line): bring that of the source"),
                (4, other, f"standby is kept under another catalogue ({other}): bring that of the source, {ANEW}"),
                (4, "journal damaged", f"standby is refused (journal damaged): {ANEW}"),
                (5, "", "standby could not be read or written: make room, mend the disk, see that nothing else writes it"),
                (6, "", "the feed could not be read"),
                (8, "", "there was no memory to follow: free some"),
                (13, "", "a line is too long for a feed, or there are too many: see what COMMAND writes"),
                (14, "", "a line is too long for a feed, or there are too many: see what COMMAND writes"),
                (18, "standby gap 3 5",
                 f"events are missing (standby gap 3 5): see that COMMAND feeds from the number that it is given; if it does, {ANEW}"),
                (18, "standby bad-line 4",
                 f"a line does not follow (standby bad-line 4): see that COMMAND writes a feed, under this catalogue; if it does, {ANEW}"),
                (18, "standby short", "the feed ended inside a state (standby short): see that COMMAND hands on all of it"),
                (137, "", "bossd ended with 137"), (7, "what", "bossd ended with 7: what")):
            self.assertEqual(_follow.advice(WORDS, status, told + "\n" if told else ""), advice)


class Faults(unittest.TestCase):
    """Why a round is not whole, and whether the source is asked for as long as it takes: 0 stands for that."""

    def fault(self, gave: int = 0, took: int = 0, told: str = "standby " + CHECKED, begins: str = _follow.RIGHT,
              known: "bytes | None" = EVENT_2) -> "tuple[int, str] | None":
        found = _follow.fault_of(WORDS, 600, _follow.Round(gave, Ran(took, told, ""), begins, 2, EVENT_2), 2, known)
        return None if found is None else (found.status, found.why)

    def test_whole(self) -> None:
        self.assertIsNone(self.fault())
        self.assertIsNone(self.fault(begins=_follow.NOWHERE, known=None))

    def test_by_the_command(self) -> None:
        unlike = f"it was set back, or the two are not of one history; if it is the right one, {ANEW}"
        self.assertEqual(self.fault(gave=3), (3, f"the source has another catalogue: bring it here, {ANEW}"))
        self.assertEqual(self.fault(gave=18), (18, f"the source has fewer events than there are here: {unlike}"))
        self.assertEqual(self.fault(gave=124), (0, "the source gave no whole feed within 600 seconds"))
        self.assertEqual(self.fault(gave=255, took=18), (0, "the source gave no whole feed: ssh ended with 255"))

    def test_by_what_was_fed(self) -> None:
        unlike = f"it was set back, or the two are not of one history; if it is the right one, {ANEW}"
        self.assertEqual(self.fault(begins=_follow.OTHERWISE), (18, f"the source does not have event 2 as it is here: {unlike}"))
        self.assertEqual(self.fault(begins=_follow.NOWHERE), (18, f"the source does not have event 2 as it is here: {unlike}"))
        # What the program says of the feed comes first.
        found = self.fault(took=18, told="standby gap 2 4\n", begins=_follow.OTHERWISE)
        self.assertIsNotNone(found)
        self.assertIn("events are missing (standby gap 2 4)", found[1] if found else "")


class StatusFile(unittest.TestCase):
    """The status file by bossd-follow(8)."""

    def numbers(self, **more: Any) -> "dict[str, int]":
        standing = _follow.Standing("follows, 5 events", 1_764_491_462, 1_764_491_460, 5, 5, 1_764_491_460, 0, 0)._replace(**more)
        lines = _follow.status_text(standing).splitlines()
        # 1764491462 is 2025-11-30 08:31:02 UTC, by date -u -d @1764491462.
        self.assertEqual(lines[0], "# 2025-11-30 08:31:02 UTC: follows, 5 events")
        self.assertEqual([line.split()[1] for line in lines if line.startswith("# ")][1:], ["HELP", "TYPE"] * 7)
        return {name: int(value) for name, value in (line.split() for line in lines if not line.startswith("#"))}

    def test_behind_a_whole_round(self) -> None:
        self.assertEqual(self.numbers(), {
            "bossd_standby_events": 5, "bossd_standby_behind_events": 0, "bossd_standby_behind_seconds": 2,
            "bossd_standby_whole_timestamp_seconds": 1_764_491_460, "bossd_standby_round_seconds": 2, "bossd_standby_broken_rounds": 0,
            "bossd_standby_given_up": 0})

    def test_before_any_and_behind_broken_ones(self) -> None:
        found = self.numbers(whole_at=0, source=9, broken=3, given_up=18)
        self.assertEqual((found["bossd_standby_behind_seconds"], found["bossd_standby_behind_events"]), (-1, 4))
        self.assertEqual((found["bossd_standby_broken_rounds"], found["bossd_standby_given_up"]), (3, 18))
        # A source that was set back is not ahead.
        self.assertEqual(self.numbers(source=3)["bossd_standby_behind_events"], 0)


class Sieving(unittest.TestCase):
    def sieved(self, text: bytes, known: "bytes | None") -> "tuple[bytes, str, int | None, bytes | None]":
        sink, sieve = Kept(), _follow.Sieve(known)
        _follow.hand_on(io.BytesIO(text), sink, sieve)
        return sink.kept, sieve.begins, sieve.number, sieve.last

    def test_a_feed_that_begins_as_it_has_to(self) -> None:
        text = EVENT_1 + b"\n" + EVENT_2 + b"\n"
        for known in (None, EVENT_1):
            self.assertEqual(self.sieved(text, known), (text, "right", 2, EVENT_2))
        # A state says by itself what it stands for, and no event behind it is known.
        state = b"\nstate 7 2\npart 0000\n"
        self.assertEqual(self.sieved(state, EVENT_1), (state, "right", 7, None))

    def test_one_that_does_not_is_read_and_not_handed_on(self) -> None:
        self.assertEqual(self.sieved(EVENT_2 + b"\n", EVENT_1), (b"", "otherwise", 2, EVENT_2))
        self.assertEqual(self.sieved(b" \n" + EVENT_1 + b"00\n" + EVENT_2 + b"\n", EVENT_1), (b" \n", "otherwise", 2, EVENT_2))
        self.assertEqual(self.sieved(b"", EVENT_1), (b"", "nowhere", None, None))

    def test_the_last_line_may_lack_its_end(self) -> None:
        self.assertEqual(self.sieved(EVENT_1, EVENT_1), (EVENT_1, "right", 1, EVENT_1))

    def test_numbers_that_are_none(self) -> None:
        for line in (b"event", b"event x 00", b"event -1 00", b"event 12345678901234567890 00", b"part 1", b"Event 1 00"):
            self.assertIsNone(self.sieved(line + b"\n", None)[2], line)

    def test_lines_without_an_end_come_in_pieces(self) -> None:
        long = b"event 1 " + b"e" * 300_000 + b" event 5 00"
        source = io.BytesIO(long + b"\n" + EVENT_2)
        self.assertLess(max(len(piece) for piece, _ in _follow.pieces_of(source)), 140_000)
        # What stands in the middle of a line begins none.
        self.assertEqual(self.sieved(long + b"\n" + EVENT_2, None), (long + b"\n" + EVENT_2, "right", 2, EVENT_2))

    def test_it_is_read_to_its_end_where_nobody_takes_it(self) -> None:
        source, sieve = io.BytesIO((EVENT_1 + b"\n") * 5_000 + EVENT_2), _follow.Sieve(None)
        reader, writer = os.pipe()
        os.close(reader)
        with contextlib.suppress(BrokenPipeError), os.fdopen(writer, "wb") as sink:
            _follow.hand_on(source, sink, sieve)
        self.assertEqual((source.read(), sieve.number), (b"", 2))


class Kept(io.BytesIO):
    """A file in memory whose bytes stay when it is closed."""

    def close(self) -> None:
        self.kept = self.getvalue()
        super().close()


class Rounds(Folder):
    """Rounds with a script in the place of the program."""

    def follower(self, command: str, bossd: str, every: "int | None" = 0, patience: int = 60, tries: int = 3,
                 compares: bool = False) -> _follow.Follower:
        words = _follow.Words("plant.toml", self.place("standby"), every, [self.script("command", command)])
        return _follow.Follower(words, _follow.Settings(bossd, self.folder, self.place("prom"), patience, tries, 3600, compares))

    def ended(self, follower: _follow.Follower) -> "tuple[int, list[str]]":
        said = io.StringIO()
        with contextlib.redirect_stderr(said):
            status = follower.run()
        return status, [line.replace("bossd-follow: ", "") for line in said.getvalue().splitlines()]

    def numbers(self) -> "dict[str, int]":
        return {name.replace("bossd_standby_", ""): int(value)
                for name, value in (line.split() for line in self.text("prom").splitlines() if not line.startswith("#"))}

    def whole(self) -> str:
        """A program whose standby takes what comes, and has two events then."""
        return self.bossd(check=f'[ ! -e "{self.place("fed")}" ] && echo journal new || printf "{CHECKED}"',
                          standby=f'cat >"{self.place("fed")}"; printf "standby {CHECKED}"', feed=f"echo {EVENT_2.decode()}")

    def test_a_whole_round(self) -> None:
        follower = self.follower(f'printf "$* %s" >"{self.place("asked")}"; echo {EVENT_1.decode()}; echo {EVENT_2.decode()}', self.whole(), None)
        self.assertEqual(self.ended(follower), (0, ["follows, 2 events"]))
        self.assertEqual(self.text("fed").encode(), EVENT_1 + b"\n" + EVENT_2 + b"\n")
        self.assertEqual(self.text("asked"), f"0 {DIGEST} ")
        told = self.numbers()
        self.assertEqual((told["events"], told["behind_events"], told["broken_rounds"], told["given_up"]), (2, 0, 0, 0))
        self.assertTrue(self.text("prom").split("UTC: ")[1].startswith("follows, 2 events\n"))

    def test_the_last_event_is_asked_for_once_more(self) -> None:
        bossd = self.whole()
        self.file("fed", "")
        follower = self.follower(f'printf "$* " >"{self.place("asked")}"; echo {EVENT_2.decode()}', bossd, None, compares=True)
        self.assertEqual(self.ended(follower), (0, ["follows, 2 events"]))
        self.assertEqual(self.text("asked"), f"1 {DIGEST} ")
        # Another one in its place is not taken.
        status, said = self.ended(self.follower(f"echo {EVENT_2.decode()}00", bossd, compares=True))
        self.assertEqual(status, 18)
        self.assertIn("given up: the source does not have event 2 as it is here", said[-1])
        self.assertEqual((self.text("fed"), self.numbers()["given_up"]), ("", 18))

    def test_what_cannot_be_followed_is_given_up(self) -> None:
        bossd = self.bossd(check="echo journal new", standby="cat >/dev/null; echo standby bad-line 1; exit 18")
        status, said = self.ended(self.follower(f'echo >>"{self.place("asked")}"; echo x', bossd))
        self.assertEqual((status, self.text("asked")), (18, "\n" * 3))
        why = "a line does not follow (standby bad-line 1): see that COMMAND writes a feed"
        # It is said once, and once more in the end.
        self.assertEqual([line.split(why)[0] for line in said], ["0 events, and not all that the source has: ", "given up: "])
        self.assertEqual(self.numbers()["broken_rounds"], 3)

    def test_once_it_has_the_status_of_its_round(self) -> None:
        bossd = self.bossd(check="echo journal new", standby="cat >/dev/null; echo standby bad-line 1; exit 18")
        self.assertEqual(self.ended(self.follower("echo x", bossd, None))[0], 18)
        self.assertEqual(self.ended(self.follower("exit 7", self.whole(), None))[0], 1)

    def test_a_source_that_is_away_is_asked_for_as_long_as_it_takes(self) -> None:
        count = self.place("asked")
        follower = self.follower(f'echo >>"{count}"; [ "$(wc -l <"{count}")" -gt 6 ] || exit 255; [ "$(wc -l <"{count}")" -eq 7 ] || exit 3', self.whole())
        status, said = self.ended(follower)
        self.assertEqual(status, 3)
        self.assertIn("the source gave no whole feed: ", said[0])
        self.assertEqual([line.split(":")[0] for line in said[1:]], ["follows, 2 events", "2 events, and not all that the source has", "given up"])
        self.assertEqual(self.text("asked"), "\n" * 10)

    def test_where_some_was_taken_it_is_not_given_up(self) -> None:
        # Each feed ends inside a state, and each brings an event more, up to the ninth; from then on none.
        count = self.place("count")
        bossd = self.bossd(check=f'echo "events $(cat "{count}" 2>/dev/null || echo 0) now 0"',
                           standby=f'cat >/dev/null; n=$(($(cat "{count}" 2>/dev/null || echo 0) + 1)); [ $n -gt 9 ] || echo $n >"{count}"; '
                                   "echo standby short; exit 18")
        status, _ = self.ended(self.follower("echo state 9 9", bossd))
        # Nine that brought something, and three that did not: but the ninth was judged before the next look found what it brought.
        self.assertEqual((status, self.numbers()["broken_rounds"], self.numbers()["events"]), (18, 12, 9))

    def test_other_ends_of_the_program_are_given_up_at_once(self) -> None:
        for jobs, status, why in (
                ({"check": "echo no space >&2; exit 5"}, 5, "could not be read or written"),
                ({"check": "echo journal new", "standby": "cat >/dev/null; echo No space left >&2; exit 5"}, 5, "make room"),
                ({"check": "echo journal new", "standby": "kill -9 $$"}, 137, "bossd ended with 137"),
                ({"check": "echo journal damaged; exit 4"}, 4, "is refused (journal damaged)")):
            ended, said = self.ended(self.follower("echo x", self.bossd(**jobs)))
            self.assertEqual(ended, status)
            self.assertIn(why, said[-1])
            self.assertEqual(self.numbers()["given_up"], status)

    def test_a_command_that_is_not_there(self) -> None:
        follower = self.follower("", self.whole(), None)
        follower.words = follower.words._replace(command=[self.place("nobody")])
        status, said = self.ended(follower)
        self.assertEqual(status, 1)
        self.assertIn("ended with 127", said[-1])

    def test_a_command_that_hangs_is_ended_with_all_that_it_began(self) -> None:
        status, said = self.ended(self.follower("sleep 600 | cat", self.whole(), None, patience=1))
        self.assertEqual(status, 1)
        self.assertIn("the source gave no whole feed within 1 seconds", said[-1])

    def test_a_program_that_is_not_there(self) -> None:
        status, said = self.ended(self.follower("", self.place("nobody")))
        self.assertEqual(status, 127)
        self.assertIn("the catalogue plant.toml can't be used, bossd ended with 127", said[-1])

    def test_signals(self) -> None:
        # The name begins a line in the file that the command writes once it runs.
        self.bossd(check="echo journal new", standby="cat >/dev/null; echo standby events 0 now 0")
        words = ["plant.toml", self.place("standby"), "5", self.script("command", f'echo $$ >"{self.place("runs")}"; exec sleep 600')]
        for one, status in ((signal.SIGTERM, 0), (signal.SIGHUP, 1), (signal.SIGINT, 1)):
            with contextlib.suppress(FileNotFoundError):
                os.remove(self.place("runs"))
            process = subprocess.Popen([sys.executable, "-m", "bossd.ctl", "follow", *words], cwd=HERE, stderr=subprocess.DEVNULL,
                                       env={**os.environ, "BOSSD": self.place("bossd"), "TMPDIR": self.folder})
            try:
                until(lambda: os.path.exists(self.place("runs")) and self.text("runs").endswith("\n"))
                process.send_signal(one)
                self.assertEqual(process.wait(SECONDS), status, one)
            finally:
                process.kill()
                process.wait()
            command = int(self.text("runs"))
            until(lambda: not runs(command))


class Feeds(Folder):
    """Feeds with a script in the place of the program."""

    def setUp(self) -> None:
        super().setUp()
        os.mkdir(self.place("memory"))
        os.mkdir(self.place("kept"))
        self.journal = self.file("kept/journal", "first file")
        self.file("kept/journal.b", "second file")

    def run_feed(self, *words: str, **settings: str) -> Ran:
        ran = subprocess.run([sys.executable, "-m", "bossd.ctl", "feed", *words], cwd=HERE, stdin=subprocess.DEVNULL, capture_output=True, text=True,
                             timeout=SECONDS * 3, env={**os.environ, "BOSSD": self.place("bossd"), "TMPDIR": self.place("memory"), "PAUSE": "0", **settings})
        self.assertEqual(os.listdir(self.place("memory")), [], "a copy is left")
        return Ran(ran.returncode, ran.stdout, ran.stderr)

    def test_a_digest(self) -> None:
        self.bossd()
        self.assertEqual(self.run_feed("plant.toml"), Ran(0, DIGEST + "\n", ""))

    def test_a_catalogue_that_is_refused(self) -> None:
        self.script("bossd", "echo no-drivers; exit 3")
        self.assertEqual(self.run_feed("plant.toml"), Ran(3, "", "bossd-feed: the catalogue plant.toml can't be used, bossd ended with 3: no-drivers\n"))

    def test_the_feed_is_that_of_a_copy(self) -> None:
        self.bossd(check=f'printf "{CHECKED}"', feed=f'shift; echo "$@" >"{self.place("asked")}"; cat "$2" "$2.b"')
        ran = self.run_feed("plant.toml", self.journal, "1", DIGEST)
        self.assertEqual(ran, Ran(0, "first filesecond file", ""))
        catalogue, copy, start = self.text("asked").split()
        self.assertEqual((catalogue, start), ("plant.toml", "1"))
        self.assertTrue(copy.startswith(self.place("memory/bossd-feed.")), copy)
        # One file alone is a journal too, and a status of the feed is handed on.
        os.remove(self.place("kept/journal.b"))
        self.bossd(check=f'printf "{CHECKED}"', feed='cat "$3"*; exit 5')
        self.assertEqual(self.run_feed("plant.toml", self.journal, "2", "-"), Ran(5, "first file", ""))

    def test_another_digest(self) -> None:
        self.bossd()
        ran = self.run_feed("plant.toml", self.journal, "0", OTHER)
        self.assertEqual(ran, Ran(3, "", f"bossd-feed: the catalogue plant.toml has the digest {DIGEST}, and that of whoever asks {OTHER}\n"))

    def test_copies_that_are_refused_are_taken_again(self) -> None:
        count = self.place("count")
        check = f'echo >>"{count}"; [ "$(wc -l <"{count}")" -gt 3 ] || {{ echo journal damaged; exit 4; }}; printf "{CHECKED}"'
        self.bossd(check=check, feed="echo fed")
        self.assertEqual(self.run_feed("plant.toml", self.journal, "0"), Ran(0, "fed\n", ""))
        os.remove(count)
        ran = self.run_feed("plant.toml", self.journal, "0", TRIES="3")
        self.assertEqual(ran, Ran(4, "", f"bossd-feed: a copy of {self.journal} is refused, bossd ended with 4: journal damaged\n"))

    def test_fewer_events(self) -> None:
        self.bossd(check=f'printf "{CHECKED}"', feed="echo fed")
        self.assertEqual(self.run_feed("plant.toml", self.journal, "2").status, 0)
        ran = self.run_feed("plant.toml", self.journal, "3", TRIES="2")
        self.assertEqual((ran.status, ran.told), (18, ""))
        self.assertIn("has 2 events, and whoever asks has 3: they are not of one history, or this journal was set back", ran.errors)

    def test_no_journal(self) -> None:
        self.bossd(check="echo journal new", feed="echo fed")
        for journal in (self.place("kept/other"), self.place("nowhere/journal")):
            ran = self.run_feed("plant.toml", journal, "0", TRIES="1")
            self.assertEqual(ran, Ran(5, "", f"bossd-feed: {journal} could not be copied, or is not there\n"))

    def test_one_at_a_time(self) -> None:
        self.bossd(check=f'printf "{CHECKED}"', feed="echo fed")
        folder = os.open(self.place("kept"), os.O_RDONLY)
        self.addCleanup(os.close, folder)
        fcntl.flock(folder, fcntl.LOCK_EX)
        ran = self.run_feed("plant.toml", self.journal, "0", WAIT="0")
        self.assertEqual(ran, Ran(5, "", f"bossd-feed: another one feeds {self.journal}\n"))
        fcntl.flock(folder, fcntl.LOCK_UN)
        self.assertEqual(self.run_feed("plant.toml", self.journal, "0", WAIT="0"), Ran(0, "fed\n", ""))

    def test_the_lock_is_held_as_long_as_the_feed_is_written(self) -> None:
        # Whoever asks for the lock inside of the feed does not get it.
        self.bossd(check=f'printf "{CHECKED}"', feed=f'flock --nonblock "{self.place("kept")}" true && echo free || echo held')
        self.assertEqual(self.run_feed("plant.toml", self.journal, "0"), Ran(0, "held\n", ""))

    def test_a_signal_leaves_no_copy(self) -> None:
        self.bossd(check=f'echo >"{self.place("runs")}"; exec sleep 600')
        process = subprocess.Popen([sys.executable, "-m", "bossd.ctl", "feed", "plant.toml", self.journal, "0"], cwd=HERE,
                                   env={**os.environ, "BOSSD": self.place("bossd"), "TMPDIR": self.place("memory")})
        try:
            until(lambda: os.path.exists(self.place("runs")))
            self.assertEqual(len(os.listdir(self.place("memory"))), 1)
            process.terminate()
            self.assertEqual(process.wait(SECONDS), 1)
        finally:
            process.kill()
            process.wait()
        self.assertEqual(os.listdir(self.place("memory")), [])


class Digests(Folder):
    def test_the_journal_that_is_asked_about_is_one_of_no_catalogue(self) -> None:
        # docs/FORMATS.md: eight letters, the version, 32 bytes of a digest, and a gate that is shut.
        bossd = self.script("bossd", f'cat "$3" >"{self.place("none")}"; echo "journal catalogue {"3" * 64} {OTHER}"; exit 4\n')
        self.assertEqual(digest_of(bossd, "plant.toml", self.folder), OTHER)
        with open(self.place("none"), "rb") as file:
            data = file.read()
        self.assertEqual((data[:8], data[8], len(data), data[-1]), (b"BOSSJRNL", 2, 42, 0))
        with self.assertRaises(Fault):
            digest_of(self.script("bossd", "printf 'events 0 now 0'\n"), "plant.toml", self.folder)


def until(test: Callable[[], object]) -> None:
    """Waits until it comes true."""
    deadline = time.monotonic() + SECONDS
    while not test():
        if time.monotonic() > deadline:
            raise AssertionError("it does not come true")
        time.sleep(0.02)


def runs(process: int) -> bool:
    """Whether a process runs; one that has ended and was not asked for yet does not."""
    try:
        with open(f"/proc/{process}/stat") as file:
            return file.read().rsplit(")", 1)[1].split()[0] != "Z"
    except OSError:
        return False


if __name__ == "__main__":
    unittest.main()
