"""bossd-follow: keeps a second journal behind one that is served elsewhere, round after round.

A round asks `bossd check` how many events the journal has, has COMMAND write the feed from there, and hands that to `bossd standby`. The
last event that is here is asked for once more, and has to come as it is here: so a source that was set back, or is of another history,
is noticed. COMMAND may bring the feed in part, twice, or from further back: what is whole is taken, and what is known is passed over."""

import contextlib
import os
import re
import signal
import subprocess
import sys
import tempfile
import threading
import time
from typing import IO, Iterator, NamedTuple, Optional, Sequence, Tuple

from ._program import ENDING, Fault, Ran, behind, digest_of, events_in, not_started, program, run, status_of, text_of, whole_number

USAGE, CATALOGUE, FILES, HISTORY, OUT_OF_TIME = 2, 3, 5, 18, 124
SHOWN = "say what follows what: bossd-follow CATALOGUE JOURNAL SECONDS COMMAND.."
# Ends of `bossd standby` behind which the source is asked again: all was taken, or the feed is at fault.
ASKED_AGAIN = (0, 6, 13, 14, 18)
# More than a line of a feed may have. Of a longer one, which is refused, no more is kept here at a time.
PIECE = 1 << 17
# How a feed begins: with the last event that is here, or a state; with something else; or not at all.
RIGHT, OTHERWISE, NOWHERE = "right", "otherwise", "nowhere"
LONGEST_PAUSE = 31_536_000
NUMBER = re.compile(rb"[0-9]{1,19}")


class Words(NamedTuple):
    """What follows what: a journal under a catalogue behind what COMMAND writes, every so many seconds, or once."""
    catalogue: str
    journal: str
    every: Optional[int]
    command: Sequence[str]

    @property
    def anew(self) -> str:
        return f"remove {self.journal} and {self.journal}.b, and follow from the beginning"

    @property
    def unlike(self) -> str:
        return f"it was set back, or the two are not of one history; if it is the right one, {self.anew}"


class Settings(NamedTuple):
    """Which program is asked, where it may write for a moment, the file that tells how far it is, the seconds that COMMAND may take, how
    often a feed that can't be followed is asked for, after how many seconds a line is written though all is as before, and whether the
    last event is asked for once more."""
    bossd: str
    folder: str
    place: Optional[str]
    patience: int
    tries: int
    tell: int
    compares: bool


class Round(NamedTuple):
    """What came of a round: the statuses of COMMAND and of `bossd standby`, what the latter wrote, how the feed began, the last number
    that it had, and the last event, where no state stands behind it."""
    gave: int
    took: Ran
    begins: str
    number: Optional[int]
    last: Optional[bytes]


class Broken(NamedTuple):
    """Why a round was not whole, and the status of giving up, 0 where the source is asked for as long as it takes."""
    status: int
    why: str


class Standing(NamedTuple):
    """How far it is, for the status file. Moments are seconds since 1970, 0 for none yet."""
    text: str
    now: int
    began: int
    events: int
    source: int
    whole_at: int
    broken: int
    given_up: int


def follow(words: Sequence[str]) -> int:
    """Follows until it is ended or gives up; the status to end with."""
    ENDING.by({signal.SIGTERM: 0, signal.SIGHUP: 1, signal.SIGINT: 1})
    try:
        return Follower(words_of(words), settings_of_environment()).run()
    except Fault as fault:
        say(fault.why)
        return fault.status


def say(text: str) -> None:
    print(f"bossd-follow: {text}", file=sys.stderr, flush=True)


def words_of(words: Sequence[str]) -> Words:
    """Fault where the words are faulty."""
    if len(words) < 4:
        raise Fault(USAGE, SHOWN)
    if words[2] != "once" and not re.fullmatch("[0-9]+", words[2]):
        raise Fault(USAGE, "SECONDS is a number, or the word once")
    return Words(words[0], words[1], None if words[2] == "once" else int(words[2]), words[3:])


def settings_of_environment() -> Settings:
    environment, runtime = os.environ, os.environ.get("RUNTIME_DIRECTORY")
    place = environment.get("STATUS") or (os.path.join(runtime, "standby.prom") if runtime else None)
    return Settings(program(), runtime or environment.get("TMPDIR") or "/tmp", place, whole_number("PATIENCE", 600), whole_number("TRIES", 5),
                    whole_number("TELL", 3600), (environment.get("COMPARE") or "yes") == "yes")


# ---- what an end means

def advice(words: Words, status: int, told: str) -> str:
    """What an end of bossd asks for, by its status and its line."""
    told, said = told.strip(), told.strip() or "no line"
    if status == CATALOGUE:
        return f"the catalogue {words.catalogue} is refused ({said}): bring that of the source"
    if status == 4 and told.startswith("journal catalogue "):
        return f"{words.journal} is kept under another catalogue ({told}): bring that of the source, {words.anew}"
    if status == 4:
        return f"{words.journal} is refused ({said}): {words.anew}"
    if status == HISTORY and told.startswith("standby gap "):
        return f"events are missing ({told}): see that COMMAND feeds from the number that it is given; if it does, {words.anew}"
    if status == HISTORY and told.startswith("standby bad-line "):
        return f"a line does not follow ({told}): see that COMMAND writes a feed, under this catalogue; if it does, {words.anew}"
    if status == HISTORY:
        return f"the feed ended inside a state ({said}): see that COMMAND hands on all of it"
    return OTHER_ADVICE.get(status, f"bossd ended with {status}{behind(told)}").format(journal=words.journal)


OTHER_ADVICE = {
    5: "{journal} could not be read or written: make room, mend the disk, see that nothing else writes it",
    6: "the feed could not be read",
    8: "there was no memory to follow: free some",
    13: "a line is too long for a feed, or there are too many: see what COMMAND writes",
    14: "a line is too long for a feed, or there are too many: see what COMMAND writes",
}


def fault_of(words: Words, patience: int, one: Round, events: int, known: Optional[bytes]) -> Optional[Broken]:
    """Why a round was not whole, if it was not: by what COMMAND said, then by what `bossd standby` did, then by how the feed began."""
    if one.gave == CATALOGUE:
        return Broken(CATALOGUE, f"the source has another catalogue: bring it here, {words.anew}")
    if one.gave == HISTORY:
        return Broken(HISTORY, f"the source has fewer events than there are here: {words.unlike}")
    if one.gave == OUT_OF_TIME:
        return Broken(0, f"the source gave no whole feed within {patience} seconds")
    if one.gave:
        return Broken(0, f"the source gave no whole feed: {words.command[0]} ended with {one.gave}")
    if one.took.status:
        return Broken(one.took.status, advice(words, one.took.status, one.took.told))
    if one.begins == OTHERWISE or (known is not None and one.begins == NOWHERE):
        return Broken(HISTORY, f"the source does not have event {events} as it is here: {words.unlike}")
    return None


def status_text(one: Standing) -> str:
    """The status file: for people in the first line, for a monitor in the others."""
    when = time.strftime("%Y-%m-%d %H:%M:%S", time.gmtime(one.now))
    numbers = (
        ("events", "Events in the standby's journal.", one.events),
        ("behind_events", "Events that the source was seen to have beyond these.", max(0, one.source - one.events)),
        ("behind_seconds", "Since the last whole round began, as this was written; -1 where there was none yet.",
         one.now - one.whole_at if one.whole_at else -1),
        ("whole_timestamp_seconds", "When the last whole round began, since 1970; 0 where there was none yet.", one.whole_at),
        ("round_seconds", "How long the last round took.", one.now - one.began),
        ("broken_rounds", "Rounds since the last whole one.", one.broken),
        ("given_up", "The status with which following ended; 0 while it goes on.", one.given_up),
    )
    return f"# {when} UTC: {one.text}\n" + "".join(
        f"# HELP bossd_standby_{name} {help}\n# TYPE bossd_standby_{name} gauge\nbossd_standby_{name} {number}\n" for name, help, number in numbers)


# ---- a feed

class Sieve:
    """Hands on a feed, unless its first line is neither the event that is known here, where there is one, nor a state. Notes which it is,
    the last number, and the last event."""

    def __init__(self, known: Optional[bytes]) -> None:
        self._known = known
        self.begins = NOWHERE
        self.number: Optional[int] = None
        self.last: Optional[bytes] = None

    @property
    def is_open(self) -> bool:
        """Whether what comes is handed on."""
        return self.begins != OTHERWISE

    def note(self, line: bytes) -> None:
        line = line.rstrip(b"\n")
        words = line.split()
        if not words:
            return
        if self.begins == NOWHERE:
            is_right = self._known is None or line == self._known or words[0] == b"state"
            self.begins = RIGHT if is_right else OTHERWISE
        if words[0] in (b"event", b"state") and len(words) > 1 and NUMBER.fullmatch(words[1]):
            self.number, self.last = int(words[1]), line if words[0] == b"event" else None


def pieces_of(source: IO[bytes]) -> Iterator[Tuple[bytes, bool]]:
    """The lines of a source with their ends, and whether a line begins there: one that is too long comes in pieces."""
    begins = True
    while True:
        piece = source.readline(PIECE)
        if not piece:
            return
        yield piece, begins
        begins = piece.endswith(b"\n")


def hand_on(source: IO[bytes], sink: IO[bytes], sieve: Sieve) -> None:
    """Hands a feed on to its end. COMMAND is to end as it does by itself, and not because nobody reads on: so it is read also where the
    other side has ended."""
    for piece, begins in pieces_of(source):
        if begins:
            sieve.note(piece)
        if sieve.is_open:
            with contextlib.suppress(BrokenPipeError):
                sink.write(piece)
    with contextlib.suppress(BrokenPipeError):
        sink.close()


class NotStarted(Exception):
    """Why COMMAND could not be started, and the status that a shell has for that."""

    def __init__(self, error: OSError) -> None:
        super().__init__(error.strerror)
        self.status = not_started(error)


class Command:
    """COMMAND under way, in a group of its own, which is ended where it takes too long. NotStarted."""

    def __init__(self, words: Sequence[str], patience: int) -> None:
        try:
            # In a session of its own it can ask nobody at a terminal.
            self._process = subprocess.Popen(words, stdin=subprocess.DEVNULL, stdout=subprocess.PIPE, bufsize=PIECE, start_new_session=True)
        except OSError as error:
            raise NotStarted(error) from error
        assert self._process.stdout is not None
        self.output: IO[bytes] = self._process.stdout
        self._is_late = False
        self._timer = threading.Timer(patience, self._late)
        self._timer.daemon = True
        if patience:
            self._timer.start()

    def ended(self) -> int:
        """Waits for its end; the status."""
        status = status_of(self._process.wait())
        self._timer.cancel()
        return OUT_OF_TIME if self._is_late else status

    def end(self) -> None:
        """Ends it, if it runs."""
        self._timer.cancel()
        if self._process.poll() is None:
            self._kill()
        self.output.close()

    def _late(self) -> None:
        self._is_late = True
        self._kill()

    def _kill(self) -> None:
        with contextlib.suppress(ProcessLookupError):
            os.killpg(self._process.pid, signal.SIGTERM)


def taken(settings: Settings, words: Words, command: Command, sieve: Sieve) -> Ran:
    """Has `bossd standby` take what COMMAND writes."""
    # Files, since nobody reads what it writes before it has ended.
    with tempfile.TemporaryFile(dir=settings.folder) as told, tempfile.TemporaryFile(dir=settings.folder) as errors:
        try:
            standby = subprocess.Popen([settings.bossd, "standby", words.catalogue, words.journal], stdin=subprocess.PIPE, stdout=told,
                                       stderr=errors, bufsize=PIECE)
        except OSError as error:
            return Ran(not_started(error), "", f"{settings.bossd}: {error.strerror}\n")
        assert standby.stdin is not None
        try:
            hand_on(command.output, standby.stdin, sieve)
        except BaseException:
            # Whoever ends this does not wait for a long feed; what was taken is whole.
            standby.terminate()
            raise
        finally:
            ended = standby.wait()
        told.seek(0)
        errors.seek(0)
        return Ran(status_of(ended), text_of(told.read()), text_of(errors.read()))


def forget(journal: str) -> None:
    """Has the files read from the disk. What a failed sync could not keep may stand in memory as if it were kept."""
    for part in ("", ".b"):
        with contextlib.suppress(OSError):
            file = os.open(journal + part, os.O_RDONLY)
            try:
                os.posix_fadvise(file, 0, 0, os.POSIX_FADV_DONTNEED)
            finally:
                os.close(file)


def moment() -> int:
    return int(time.time())


# ---- round after round

class Follower:
    """A standby, and what is known of it and of its source from round to round."""

    def __init__(self, words: Words, settings: Settings) -> None:
        self.words, self.settings = words, settings
        # How many events are here, and how many the source was seen to have.
        self.events, self.source = 0, 0
        # When the last whole round began, how many were broken since, and how many of those in a row want somebody to come.
        self.whole_at, self.broken, self.failed = 0, 0, 0
        self.began = self.now = moment()
        # How a feed tells the last event that is here; None where a state stands for it, or none is compared.
        self.known: Optional[bytes] = None
        self.digest, self._said, self._said_at, self._text = "", "", 0, ""

    def run(self) -> int:
        """Goes round until it gives up, or once; the status to end with."""
        try:
            self.digest = digest_of(self.settings.bossd, self.words.catalogue, self.settings.folder)
            forget(self.words.journal)
            while True:
                broken = self.go_round()
                if self.words.every is None:
                    return (broken.status or 1) if broken else 0
                time.sleep(min(self.words.every, LONGEST_PAUSE))
        except Fault as fault:
            return self._given_up(fault)
        except OSError as error:
            return self._given_up(Fault(FILES, f"{error.filename or self.settings.folder}: {error.strerror}"))

    def go_round(self) -> Optional[Broken]:
        """One round: why it was broken, if it was. Fault where it is given up, OSError."""
        self.began, before = moment(), self.events
        self._look()
        if self.events > before:
            # Where some of a feed was taken, what comes next is another one.
            self.failed = 0
        one = self._fed()
        self.now = moment()
        if one.took.status not in ASKED_AGAIN:
            sys.stderr.write(one.took.errors)
            raise Fault(one.took.status, advice(self.words, one.took.status, one.took.told))
        broken = fault_of(self.words, self.settings.patience, one, self.events, self.known)
        if broken is None:
            self._is_whole(one)
        else:
            self._is_broken(one, broken)
        if not self._publish(0):
            say(f"the file {self.settings.place} could not be written")
        return broken

    def _is_whole(self, one: Round) -> None:
        self.events = self.source = events_in(one.took.told)
        self.known, self.whole_at, self.failed, self.broken = one.last, self.began, 0, 0
        self._report("whole", f"follows, {self.events} events")

    def _is_broken(self, one: Round, broken: Broken) -> None:
        """Fault where such a round came too often in a row."""
        self.broken += 1
        self.source = max(self.source, one.number or 0)
        self.failed += 1 if broken.status else 0
        if self.failed >= self.settings.tries:
            raise Fault(broken.status, broken.why)
        self._report(broken.why, f"{self.events} events, and not all that the source has: {broken.why}")

    def _look(self) -> None:
        """Finds how many events are here, and how a feed tells the last one. Fault."""
        ran = run([self.settings.bossd, "check", self.words.catalogue, self.words.journal])
        if ran.status:
            sys.stderr.write(ran.errors)
            raise Fault(ran.status, advice(self.words, ran.status, ran.told))
        self.events = events_in(ran.told)
        if self.known is not None and not self.known.startswith(b"event %d " % self.events):
            self.known = None
        if self.known is None and self.settings.compares and self.events:
            self.known = self._last_event()

    def _last_event(self) -> Optional[bytes]:
        """The line of the last event that is here; None where a state stands for it."""
        words = [self.settings.bossd, "feed", self.words.catalogue, self.words.journal, str(self.events - 1)]
        with subprocess.Popen(words, stdin=subprocess.DEVNULL, stdout=subprocess.PIPE, stderr=subprocess.DEVNULL) as feed:
            assert feed.stdout is not None
            line = feed.stdout.readline(PIECE)
            # Of a state nothing more is wanted.
            feed.kill()
        return line.rstrip(b"\n") if line.startswith(b"event ") else None

    def _fed(self) -> Round:
        """Has COMMAND feed, and `bossd standby` take it."""
        start = self.events if self.known is None else self.events - 1
        sieve = Sieve(self.known)
        command: Optional[Command] = None
        try:
            with ENDING.held():
                command = Command([*self.words.command, str(start), self.digest], self.settings.patience)
            took = taken(self.settings, self.words, command, sieve)
            return Round(command.ended(), took, sieve.begins, sieve.number, sieve.last)
        except NotStarted as error:
            say(f"{self.words.command[0]}: {error}")
            return Round(error.status, Ran(0, "", ""), NOWHERE, None, None)
        finally:
            if command is not None:
                command.end()

    def _report(self, kind: str, text: str) -> None:
        """Says how it stands, where that is new, or was said long ago."""
        self._text = text
        if kind != self._said or self.now - self._said_at >= self.settings.tell:
            say(text)
            self._said, self._said_at = kind, self.now

    def _given_up(self, fault: Fault) -> int:
        self._text, self.now = f"given up: {fault.why}", moment()
        say(self._text)
        self._publish(fault.status)
        return fault.status

    def _publish(self, given_up: int) -> bool:
        """Writes how far it is; whether it could."""
        place = self.settings.place
        if place is None:
            return True
        standing = Standing(self._text, self.now, self.began, self.events, self.source, self.whole_at, self.broken, given_up)
        try:
            with open(place + ".new", "w") as file:
                file.write(status_text(standing))
            os.chmod(place + ".new", 0o644)
            os.replace(place + ".new", place)
        except OSError:
            return False
        return True
