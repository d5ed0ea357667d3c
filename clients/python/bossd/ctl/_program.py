"""Runs bossd itself, for the commands that keep a second journal, and reads what it says."""

import contextlib
import os
import re
import shutil
import signal
import subprocess
import sys
import tempfile
from types import FrameType
from typing import Dict, Iterator, Mapping, NamedTuple, Optional, Sequence

# What a shell says of a command that is not there, and of one that can't be run.
NOT_THERE, NOT_RUN = 127, 126
EVENTS = re.compile(r"(?:standby )?events (\d+)\b")
DIGEST = re.compile(r"journal catalogue .* ([0-9a-f]{64})\n")
# A journal that is kept under no catalogue, since its digest is none: 32 characters that no SHA-256 is likely to be.
KEPT_UNDER_NONE = b"BOSSJRNL\2" + b"0" * 32 + b"\0"


class Fault(Exception):
    """Why a command ends, and with which status."""

    def __init__(self, status: int, why: str) -> None:
        super().__init__(why)
        self.status, self.why = status, why


class Ran(NamedTuple):
    """How a program ended: its status as a shell has it, and what it wrote to its output, and beside it."""
    status: int
    told: str
    errors: str


def status_of(ended: int) -> int:
    """The status of a program by what Python tells: more than 128 where a signal ended it."""
    return ended if ended >= 0 else 128 - ended


def not_started(error: OSError) -> int:
    """The status of a program that could not be started."""
    return NOT_THERE if isinstance(error, FileNotFoundError) else NOT_RUN


def program() -> str:
    """The built program: BOSSD in the environment, the one beside bossctl, or the one that the path has."""
    beside = os.path.join(os.path.dirname(os.path.abspath(sys.argv[0])), "bossd")
    is_beside = os.path.isfile(beside) and os.access(beside, os.X_OK)
    return os.environ.get("BOSSD") or (beside if is_beside else shutil.which("bossd") or "/usr/bin/bossd")


def run(words: Sequence[str]) -> Ran:
    """Runs a program that is asked nothing, to its end."""
    try:
        ran = subprocess.run(words, stdin=subprocess.DEVNULL, stdout=subprocess.PIPE, stderr=subprocess.PIPE)
    except OSError as error:
        return Ran(not_started(error), "", f"{words[0]}: {error.strerror}\n")
    return Ran(status_of(ran.returncode), text_of(ran.stdout), text_of(ran.stderr))


def text_of(data: bytes) -> str:
    return data.decode("utf-8", "replace")


def events_in(told: str) -> int:
    """How many events a journal has, by the line of a check or of a standby; a new one has none."""
    found = EVENTS.match(told)
    return int(found[1]) if found else 0


def behind(told: str) -> str:
    """What the program said, to stand behind its status."""
    return f": {told.strip()}" if told.strip() else ""


def digest_of(bossd: str, catalogue: str, folder: str) -> str:
    """The digest of a catalogue, as the program tells it of a journal that is kept under none, which is written into this folder for a
    moment. Fault, with the program's status; OSError."""
    with tempfile.NamedTemporaryFile(dir=folder, prefix="none.") as none:
        none.write(KEPT_UNDER_NONE)
        none.flush()
        ran = run([bossd, "check", catalogue, none.name])
    found = DIGEST.match(ran.told)
    if ran.status != 4 or found is None:
        raise Fault(ran.status or 1, f"the catalogue {catalogue} can't be used, bossd ended with {ran.status}{behind(ran.told)}")
    return found[1]


def whole_number(name: str, default: int) -> int:
    """A setting of the environment. Fault where it is no number."""
    text = os.environ.get(name) or str(default)
    if not re.fullmatch("[0-9]+", text):
        raise Fault(2, f"{name} in the environment is no number: {text}")
    return int(text)


class Ending:
    """Signals that end this program, each with its status, once, and so that what was begun is put away."""

    def __init__(self) -> None:
        self._statuses: Dict[int, int] = {}
        self._is_held = False
        self._came: Optional[int] = None

    def by(self, statuses: Mapping["signal.Signals", int]) -> None:
        """From now on these end it. One that whoever started this passes over is passed over."""
        self._statuses = {int(one): status for one, status in statuses.items() if signal.getsignal(one) != signal.SIG_IGN}
        for one in self._statuses:
            signal.signal(one, self._end)

    @contextlib.contextmanager
    def held(self) -> Iterator[None]:
        """While something is begun, until it can be put away, a signal waits. SystemExit behind it, where one came."""
        self._is_held = True
        try:
            yield
        finally:
            self._is_held = False
        if self._came is not None:
            raise SystemExit(self._came)

    def _end(self, number: int, frame: Optional[FrameType]) -> None:
        for one in self._statuses:
            signal.signal(one, signal.SIG_IGN)
        self._came = self._statuses[number]
        if not self._is_held:
            raise SystemExit(self._came)


ENDING = Ending()
