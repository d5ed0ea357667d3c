"""bossd-feed: writes the feed of a journal that a server may be writing.

Both files of the journal are copied, and the feed is that of the copy. A copy that took the files in the middle of a change may be
refused, or have fewer events than whoever asks: then they are copied again. Nothing is written before a copy was found whole. Of one
journal one copy is there at a time, and it lies in memory: whoever has the standby's key can't fill this machine's disk with more."""

import contextlib
import fcntl
import os
import re
import shutil
import signal
import subprocess
import sys
import tempfile
import time
from typing import Iterator, NamedTuple, Optional, Sequence

from ._program import ENDING, Fault, behind, digest_of, events_in, not_started, program, run, status_of, whole_number

BROKEN, USAGE, CATALOGUE, FILES, HISTORY = 1, 2, 3, 5, 18
SHOWN = "say of which journal, and from where: bossd-feed CATALOGUE JOURNAL FROM [DIGEST]"
# How often another one's lock is looked at, in seconds.
GLANCE = 0.05


class Asked(NamedTuple):
    """What is to be fed: the events of a journal above a number, to whoever has a catalogue of this digest, where it is compared."""
    catalogue: str
    journal: str
    start: int
    digest: Optional[str]


class Settings(NamedTuple):
    """Which program is asked, where copies go, how often and after how many seconds they are taken, and how long another one is waited
    for."""
    bossd: str
    memory: str
    tries: int
    pause: int
    wait: int


def feed(words: Sequence[str]) -> int:
    """Feeds, or tells the digest of a catalogue alone; the status to end with."""
    ENDING.by({signal.SIGHUP: 1, signal.SIGINT: 1, signal.SIGTERM: 1})
    try:
        asked = None if len(words) == 1 else asked_by(words)
        settings = settings_of_environment()
        with folder_in(settings.memory) as folder:
            if asked is None:
                print(digest_of(settings.bossd, words[0], folder), flush=True)
                return 0
            return fed(asked, settings, folder)
    except BrokenPipeError:
        return BROKEN
    except Fault as fault:
        return say(fault.why, fault.status)


def say(text: str, status: int) -> int:
    print(f"bossd-feed: {text}", file=sys.stderr)
    return status


def asked_by(words: Sequence[str]) -> Asked:
    """What these words ask; they may come from another machine. Fault."""
    if len(words) not in (3, 4):
        raise Fault(USAGE, SHOWN)
    if not re.fullmatch("[0-9]+", words[2]):
        raise Fault(USAGE, "FROM is a number of events")
    digest = words[3] if len(words) == 4 else "-"
    return Asked(words[0], words[1], int(words[2]), None if digest == "-" else digest)


def settings_of_environment() -> Settings:
    memory = os.environ.get("TMPDIR") or os.environ.get("RUNTIME_DIRECTORY") or "/dev/shm"
    return Settings(program(), memory if os.access(memory, os.W_OK) else "/tmp", whole_number("TRIES", 5), whole_number("PAUSE", 1),
                    whole_number("WAIT", 10))


@contextlib.contextmanager
def folder_in(memory: str) -> Iterator[str]:
    """A folder of its own, for as long as it is wanted. Fault where there is no room for one."""
    try:
        folder = tempfile.mkdtemp(prefix="bossd-feed.", dir=memory)
    except OSError as error:
        raise Fault(FILES, f"{memory}: {error.strerror}") from error
    try:
        yield folder
    except OSError as error:
        raise Fault(FILES, f"{memory}: {error.strerror}") from error
    finally:
        shutil.rmtree(folder, ignore_errors=True)


def fed(asked: Asked, settings: Settings, folder: str) -> int:
    """Writes the feed; the status of the program that does. Fault, and then nothing is written."""
    if asked.digest is not None:
        here = digest_of(settings.bossd, asked.catalogue, folder)
        if here != asked.digest:
            raise Fault(CATALOGUE, f"the catalogue {asked.catalogue} has the digest {here}, and that of whoever asks {asked.digest}")
    with alone(asked.journal, settings.wait) as lock:
        copy = whole_copy(asked, settings, folder)
        sys.stdout.flush()
        # The lock goes along: where this is killed, the next one waits for the end of what it began.
        try:
            ran = subprocess.run([settings.bossd, "feed", asked.catalogue, copy, str(asked.start)], stdin=subprocess.DEVNULL, pass_fds=(lock,))
        except OSError as error:
            raise Fault(not_started(error), f"{settings.bossd}: {error.strerror}") from error
    return status_of(ran.returncode)


@contextlib.contextmanager
def alone(journal: str, wait: float) -> Iterator[int]:
    """Waits until no other one copies this journal, and keeps others from it. Only who may read the journal can take the lock of its
    folder. Fault."""
    try:
        lock = os.open(os.path.dirname(journal) or ".", os.O_RDONLY | os.O_DIRECTORY)
    except OSError as error:
        raise Fault(FILES, f"{journal} could not be copied, or is not there") from error
    try:
        deadline = time.monotonic() + wait
        while not is_locked(lock):
            if time.monotonic() > deadline:
                raise Fault(FILES, f"another one feeds {journal}")
            time.sleep(GLANCE)
        yield lock
    finally:
        os.close(lock)


def is_locked(lock: int) -> bool:
    """Takes the lock, if nobody has it."""
    try:
        fcntl.flock(lock, fcntl.LOCK_EX | fcntl.LOCK_NB)
        return True
    except BlockingIOError:
        return False


def whole_copy(asked: Asked, settings: Settings, folder: str) -> str:
    """The name of a copy that is whole and has what is asked for. Fault."""
    fault: Optional[Fault] = None
    for turn in range(max(1, settings.tries)):
        if turn:
            time.sleep(settings.pause)
        copy = copied(asked.journal, folder)
        fault = fault_of(copy, asked, settings.bossd)
        if copy is not None and fault is None:
            return copy
    assert fault is not None
    raise fault


def copied(journal: str, folder: str) -> Optional[str]:
    """The name of a copy of the files that there are; None where there is none, or one can't be copied."""
    copy = os.path.join(folder, "journal")
    parts = [part for part in ("", ".b") if os.path.exists(journal + part)]
    for part in ("", ".b"):
        with contextlib.suppress(FileNotFoundError):
            os.remove(copy + part)
    try:
        for part in parts:
            shutil.copyfile(journal + part, copy + part)
    except OSError:
        return None
    return copy if parts else None


def fault_of(copy: Optional[str], asked: Asked, bossd: str) -> Optional[Fault]:
    """Why a copy is not fed, if it is not."""
    if copy is None:
        return Fault(FILES, f"{asked.journal} could not be copied, or is not there")
    ran = run([bossd, "check", asked.catalogue, copy])
    if ran.status:
        return Fault(ran.status, f"a copy of {asked.journal} is refused, bossd ended with {ran.status}{behind(ran.told)}")
    events = events_in(ran.told)
    if events < asked.start:
        return Fault(HISTORY, f"{asked.journal} has {events} events, and whoever asks has {asked.start}: they are not of one history,"
                     " or this journal was set back")
    return None
