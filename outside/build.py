"""Proves the libraries, as many side by side as the machine can bear, and builds the program.

Proves the libraries of the program, those that stand on nothing else first and as many side by side as there are processors and memory,
and then builds the program. Run it first in a new checkout; ./bossd calls it too, where the program is older than its sources, or is
missing and a first look (tools/look) will not do.

    tools/build [JOBS]

JOBS is how many crates are proved at a time; where it is left out, one for each processor, but one for each 3 GB of free memory at most.
What earlier runs proved is taken where nothing it rests on has changed. How far it is stands on standard error, and what `rt` writes of a
crate in out/build.log of its folder. It needs `rt` on the path and nothing else.

One run of `rt` works in a crate's folder and in those of all crates below it, and keeps every other run out of these. So each run has a
copy of the sources of its own, below out/build, with the libraries that were built before; what it built is moved back."""

import contextlib
import fcntl
import os
import shutil
import signal
import subprocess
import sys
import time
from typing import NoReturn, TextIO

from outside import TOP
from outside.cases import heed_help

# Of each crate those that it stands on.
Lower = dict[str, list[str]]

PROGRAM = "bossd"
# A check has been seen to take so much memory, in kB.
MEMORY_OF_A_CRATE = 3 << 20
# How often it says how far it is, in seconds.
PACE = 30
# What the proofs of all crates take of one processor, and of as many as one likes, since each waits for those below it: in minutes, as
# they were seen on a machine of 2.5 GHz. With the program itself.
WORK, CHAIN = 135, 35
SLOTS = os.path.join(TOP, "out", "build")
LOG = "build.log"


def lines() -> dict[str, str]:
    """The lines of crates.txt, by the crate of each."""
    with open(os.path.join(TOP, "crates.txt"), encoding="utf-8") as file:
        found = [line.split("#")[0].strip() for line in file]
    return {line.split(":")[0].split()[0]: line for line in found if line}


def crates() -> Lower:
    """Of each crate those of this repository that it stands on."""
    lower = {name: line.partition(":")[2].split() for name, line in lines().items()}
    return {name: [one for one in names if one in lower] for name, names in lower.items()}


def below(lower: Lower, name: str) -> set[str]:
    """The libraries that a crate stands on, and those that they stand on, and so on."""
    found, todo = set(), list(lower[name])
    while todo:
        name = todo.pop()
        if name not in found:
            found.add(name)
            todo += lower[name]
    return found


def heights(lower: Lower, libraries: set[str]) -> dict[str, int]:
    """Of each library how many others stand on one another above it, at most: the highest is proved first."""
    found = {}

    def height(name: str) -> int:
        if name not in found:
            found[name] = 1 + max((height(other) for other in libraries if name in lower[other]), default=0)
        return found[name]

    for name in libraries:
        height(name)
    return found


def free_memory() -> int:
    """What the system could give, in kB."""
    with open("/proc/meminfo") as file:
        return next(int(line.split()[1]) for line in file if line.startswith("MemAvailable"))


def jobs_here() -> int:
    return max(1, min(len(os.sched_getaffinity(0)), free_memory() // MEMORY_OF_A_CRATE))


def folder_of(name: str, top: str = TOP) -> str:
    return os.path.join(top, "crates", name)


def out_of(name: str, top: str = TOP) -> str:
    return os.path.join(folder_of(name, top), "out")


def newest(name: str) -> float:
    """When a file of a crate was changed last."""
    found = [os.path.getmtime(folder_of(name))]
    for folder, folders, files in os.walk(folder_of(name)):
        folders[:] = [one for one in folders if one not in ("out", "must-fail")]
        found += [os.path.getmtime(os.path.join(folder, file)) for file in files]
    return max(found)


def text_of(path: str) -> str | None:
    try:
        with open(path, encoding="utf-8") as file:
            return file.read()
    except OSError:
        return None


def start(top: str, name: str, *words: str) -> subprocess.Popen[bytes]:
    """Starts rt in a crate's folder, with its log."""
    os.makedirs(out_of(name, top), exist_ok=True)
    with open(os.path.join(out_of(name, top), LOG), "wb") as log:
        return subprocess.Popen(["rt", *words], cwd=folder_of(name, top), stdin=subprocess.DEVNULL, stdout=log, stderr=subprocess.STDOUT,
                                start_new_session=True)


class Slot:
    """A copy of the sources in which one run works at a time."""

    def __init__(self, place: int, libraries: set[str]) -> None:
        self.top = os.path.join(SLOTS, str(place))
        self.name: str | None = None
        self.process: subprocess.Popen[bytes] | None = None
        os.makedirs(self.top)
        shutil.copy(os.path.join(TOP, "HANDLES"), self.top)
        with open(os.path.join(self.top, "crates.txt"), "w", encoding="utf-8") as file:
            file.writelines(f"{line}\n" for name, line in lines().items() if name in libraries)
        for name in libraries:
            shutil.copytree(folder_of(name), folder_of(name, self.top), ignore=lambda folder, names: {"out"} & set(names))

    def begin(self, name: str, lower: Lower, jobs: int) -> None:
        """Starts a crate, with what was built of those below it, and with what earlier runs kept of it."""
        for other in below(lower, name):
            self.bring(other)
        if os.path.isdir(out_of(name, self.top)):
            shutil.rmtree(out_of(name, self.top))
        if os.path.isdir(out_of(name)):
            os.rename(out_of(name), out_of(name, self.top))
        self.name, self.process = name, start(self.top, name, "lib", "--jobs", str(jobs))

    def bring(self, name: str) -> None:
        here, there = os.path.join(out_of(name), "rlib"), os.path.join(out_of(name, self.top), "rlib")
        if text_of(os.path.join(here, "stamp")) != text_of(os.path.join(there, "stamp")):
            shutil.rmtree(there, ignore_errors=True)
            shutil.copytree(here, there, copy_function=os.link)

    def is_over(self) -> bool:
        return self.process is not None and self.process.poll() is not None

    def end(self) -> tuple[str, int]:
        """Moves what was built, and what was kept, back to the crate. Its name, and the status of its run."""
        if self.name is None or self.process is None:
            raise AssertionError("nothing runs in this copy")
        name, status = self.name, int(self.process.returncode)
        self.name = self.process = None
        os.rename(out_of(name, self.top), out_of(name))
        return name, status


def clear() -> None:
    """Takes the copies away. Where an earlier run was killed, the work of what it was at goes back to its crate before."""
    for slot in os.listdir(SLOTS) if os.path.isdir(SLOTS) else []:
        folder = os.path.join(SLOTS, slot)
        for name in os.listdir(os.path.join(folder, "crates")) if os.path.isdir(os.path.join(folder, "crates")) else []:
            if os.path.exists(os.path.join(out_of(name, folder), LOG)) and not os.path.exists(out_of(name)):
                os.rename(out_of(name, folder), out_of(name))
    shutil.rmtree(SLOTS, ignore_errors=True)


def alone() -> TextIO:
    """Waits until no other run builds here. What is given is to be kept until the end."""
    os.makedirs(os.path.dirname(SLOTS), exist_ok=True)
    lock = open(SLOTS + ".lock", "w")
    try:
        fcntl.flock(lock, fcntl.LOCK_EX | fcntl.LOCK_NB)
    except BlockingIOError:
        print("bossd: another run builds here; this one waits for it", file=sys.stderr, flush=True)
        fcntl.flock(lock, fcntl.LOCK_EX)
    return lock


class Build:
    def __init__(self, jobs: int) -> None:
        self.lower, self.jobs, self.began, self.told = crates(), jobs, time.monotonic(), 0.0
        self.libraries = below(self.lower, PROGRAM)
        self.height = heights(self.lower, self.libraries)
        self.waiting, self.proved = set(self.libraries), set[str]()
        self.slots: list[Slot] = []

    def run(self) -> None:
        clear()
        try:
            self.slots = [Slot(place, self.libraries) for place in range(min(self.jobs, len(self.libraries)))]
            self.prove()
        finally:
            self.stop()
        self.finish()

    def old(self) -> set[str]:
        """The libraries that are to be proved, as far as the times of files tell: a source is newer than what was proved, here or below."""
        found = set[str]()
        for name in sorted(self.libraries, key=lambda name: -self.height[name]):
            stamp = os.path.join(out_of(name), "rlib", "stamp")
            if not os.path.exists(stamp) or found.intersection(self.lower[name]) or newest(name) > os.path.getmtime(stamp):
                found.add(name)
        return found

    def announce(self) -> None:
        """What there is to do, and about how long it takes here."""
        old = len(self.old())
        part = (old + 1) / (len(self.libraries) + 1)
        minutes = max(1, round(part * max(CHAIN, WORK / self.jobs)))
        what = f"proving {old} of {len(self.libraries)} crates, {self.jobs} at a time, then the program" if old else "proving the program"
        told = "a minute" if minutes == 1 else f"{minutes} minutes"
        print(f"bossd: {what}, and building it, once: about {told}", file=sys.stderr, flush=True)

    def prove(self) -> None:
        while self.waiting or self.running():
            self.begin()
            time.sleep(0.2)
            for slot in self.slots:
                if slot.is_over():
                    self.end(slot)
            if time.monotonic() > self.told + PACE:
                self.tell()

    def running(self) -> list[str]:
        return sorted(slot.name for slot in self.slots if slot.name)

    def begin(self) -> None:
        """Starts what stands on nothing that is not proved yet, as far as there is room."""
        ready = sorted((name for name in self.waiting if self.proved.issuperset(self.lower[name])), key=lambda name: (-self.height[name], name))
        # What runs alone may take all processors.
        jobs = self.jobs if len(ready) == 1 and not self.running() else 1
        for name, slot in zip(ready, [slot for slot in self.slots if slot.name is None]):
            self.waiting.remove(name)
            slot.begin(name, self.lower, jobs)

    def end(self, slot: Slot) -> None:
        name, status = slot.end()
        if status != 0:
            fail(name)
        self.proved.add(name)
        self.tell()

    def tell(self) -> None:
        self.told = time.monotonic()
        minutes = (self.told - self.began) / 60
        now = f"; now {', '.join(self.running())}" if self.running() else ""
        print(f"bossd: {len(self.proved)} of {len(self.libraries)} crates proved, {minutes:.1f} minutes{now}", file=sys.stderr, flush=True)

    def stop(self) -> None:
        """Ends what still runs, keeps its work, and takes the copies away."""
        busy = [(slot, slot.process) for slot in self.slots if slot.process is not None]
        # First the run is asked, and once it ended whatever it started is made to end.
        for sent in (signal.SIGTERM, signal.SIGKILL):
            for _, process in busy:
                with contextlib.suppress(ProcessLookupError):
                    os.killpg(process.pid, sent)
            for _, process in busy:
                process.wait()
        for slot, _ in busy:
            slot.end()
        clear()

    def finish(self) -> None:
        """Proves the program itself and builds it. With no words it writes how it is used, which shows that it was built and runs."""
        print(f"bossd: all {len(self.libraries)} crates proved; building the program", file=sys.stderr, flush=True)
        process = start(TOP, PROGRAM, "run")
        try:
            process.wait()
        except KeyboardInterrupt:
            os.killpg(process.pid, signal.SIGTERM)
            process.wait()
            raise
        if not os.access(os.path.join(out_of(PROGRAM), PROGRAM), os.X_OK):
            fail(PROGRAM)


def fail(name: str) -> NoReturn:
    """Ends everything, with the last lines of the log of what failed."""
    log = os.path.join(out_of(name), LOG)
    sys.stderr.write("".join(f"  {line}\n" for line in (text_of(log) or "").splitlines()[-20:]))
    sys.exit(f"bossd: {name} could not be proved or built; {log} says more")


def main() -> None:
    heed_help(__doc__)
    jobs = int(sys.argv[1]) if len(sys.argv) > 1 else jobs_here()
    for sent in (signal.SIGTERM, signal.SIGHUP):
        signal.signal(sent, signal.default_int_handler)
    try:
        with alone():
            build = Build(jobs)
            build.announce()
            build.run()
    except KeyboardInterrupt:
        sys.exit("bossd: stopped; what was proved is kept")


if __name__ == "__main__":
    main()
