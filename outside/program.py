"""What the tools share: the built program, a free port, a server that is started and stopped, and what a process has in memory.

The program is that of this repository (./bossd builds it), or the one that BOSSD in the environment names."""

import os
import signal
import socket
import subprocess
import sys
import time
from collections.abc import Callable
from typing import IO, Any, AnyStr, Self

from outside import CLIENT, TOP

PROGRAM = os.path.abspath(os.environ.get("BOSSD") or os.path.join(TOP, "crates", "bossd", "out", "bossd"))
EXAMPLES = os.path.join(TOP, "examples")
# The commands of packaging/ find the client of this repository, whatever is installed.
os.environ["PYTHONPATH"] = os.pathsep.join([CLIENT, *filter(None, [os.environ.get("PYTHONPATH")])])
# How long, in seconds, a server may take until it listens.
PATIENCE = 60
# So many free bytes at most the C library keeps for each thread, as in the unit for systemd.
SETTINGS = {"MALLOC_TRIM_THRESHOLD_": "262144"}


def need_program() -> None:
    """Ends the tool where there is no program to try."""
    if not os.access(PROGRAM, os.X_OK):
        name = os.path.basename(sys.argv[0])
        sys.exit(f"{name}: there is no program at {PROGRAM}: run tools/build, or name another one in BOSSD")


def heading() -> str:
    """When a run began, the commit of the repository in which the program lies, and how busy the machine was: a row of docs/MEASURED.md
    has all three."""
    ran = subprocess.run(["git", "-C", os.path.dirname(PROGRAM), "log", "-1", "--format=%h"], capture_output=True, text=True)
    when = time.strftime("%Y-%m-%d %H:%M UTC", time.gmtime())
    commit = ran.stdout.strip() or "unknown"
    return f"{when}, commit {commit}, {os.cpu_count()} processors, load {os.getloadavg()[0]:.1f}"


def free_port() -> int:
    """A port of 127.0.0.1 on which nobody listens."""
    with socket.create_server(("127.0.0.1", 0)) as taken:
        return int(taken.getsockname()[1])


def eventually(test: Callable[[], object], seconds: float = 5.0) -> bool:
    """Whether it comes true in so many seconds."""
    deadline = time.monotonic() + seconds
    while not test():
        if time.monotonic() > deadline:
            return False
        time.sleep(0.02)
    return True


def listens(port: int) -> bool:
    """Whether somebody takes connections on this port."""
    try:
        socket.create_connection(("127.0.0.1", port), timeout=1).close()
        return True
    except OSError:
        return False


def piped(pipe: IO[AnyStr] | None) -> IO[AnyStr]:
    """A pipe of a process; AssertionError where it was started without."""
    if pipe is None:
        raise AssertionError("the process has no such pipe")
    return pipe


def memory_of(pid: int) -> int:
    """What a process has in memory now, in kB; 0 where there is none."""
    try:
        with open(f"/proc/{pid}/status") as file:
            return next((int(line.split()[1]) for line in file if line.startswith("VmRSS")), 0)
    except OSError:
        return 0


def private_of(pid: int) -> int:
    """What a process has in memory that no other one shares with it, in kB."""
    with open(f"/proc/{pid}/smaps_rollup") as file:
        return sum(int(line.split()[1]) for line in file if line.startswith("Private_"))


def check(catalogue: str, journal: str) -> tuple[str, int]:
    """What `bossd check` writes of a journal, and its status."""
    ran = subprocess.run([PROGRAM, "check", catalogue, journal], capture_output=True, text=True)
    return ran.stdout.strip(), ran.returncode


class Server:
    """The program, serving a journal of its own; `-` keeps nothing. `in_all` is how many connections it serves before it ends, `rules`,
    `plan` and `keys` are the files of its last words, `-` for none. What is changed here holds from the next start on."""

    def __init__(self, catalogue: str, journal: str = "-", workers: int = 4, in_all: int = 4_294_967_295, port: int | None = None, rules: str = "-", plan: str = "-", keys: str = "-") -> None:
        self.catalogue, self.journal, self.workers, self.in_all = catalogue, journal, workers, in_all
        self.rules, self.plan, self.keys = rules, plan, keys
        self.port = port or free_port()
        self.address = f"127.0.0.1:{self.port}"
        self._process: subprocess.Popen[Any] | None = None

    @property
    def process(self) -> subprocess.Popen[Any]:
        """What runs, or ran last."""
        if self._process is None:
            raise AssertionError("the program was not started")
        return self._process

    def __enter__(self) -> Self:
        self.start()
        return self

    def __exit__(self, *_: object) -> None:
        self.stop()

    def start(self, **more: Any) -> None:
        """Starts it, and waits until it listens."""
        self.launch(**more)
        if not eventually(self.is_ready, PATIENCE):
            raise AssertionError(f"the program does not listen {PATIENCE} seconds after its start")

    def launch(self, **more: Any) -> None:
        """Starts it and no more. What is given goes to the process."""
        given: dict[str, Any] = {"stdin": subprocess.DEVNULL, "stdout": subprocess.DEVNULL, "env": {**os.environ, **SETTINGS}, **more}
        self._process = subprocess.Popen([PROGRAM, *self.words()], **given)

    def words(self) -> list[str]:
        """The words that it is started with. Those that are `-` at the end are left out."""
        words = ["serve", self.catalogue, self.journal, self.address, str(self.workers), str(self.in_all), self.rules, self.plan, self.keys]
        while words[-1] == "-":
            words.pop()
        return words

    def is_ready(self) -> bool:
        """Whether it listens; AssertionError where it ended instead."""
        if self.process.poll() is not None:
            raise AssertionError(f"the program ended with {self.process.returncode}")
        return listens(self.port)

    def kill(self, how: int = signal.SIGKILL) -> None:
        """Ends it by this signal."""
        self.process.send_signal(how)
        self.process.wait()

    def stop(self) -> None:
        """Ends it, if it runs."""
        if self._process is not None and self._process.poll() is None:
            self.kill()

    def memory(self) -> int:
        """What it has in memory now, in kB."""
        return memory_of(self.process.pid)

    def check(self) -> str:
        """What a check writes of its journal."""
        text, status = check(self.catalogue, self.journal)
        if status != 0:
            raise AssertionError(f"check ended with {status}: {text}")
        return text
