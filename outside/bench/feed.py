"""Measures what a feed and following one cost.

Measures `bossd feed` and `bossd standby` of the built program (./bossd; BOSSD names another one) and prints tables, after the date, the commit
and the load: megabytes a second of feeds and of following, events a second followed, with each synced, beside as many records in a
file, each with two syncs, and what a standby that has all of it already takes for a round; and memory at 4,096 points.

    bench/feed [TABLE..]

TABLE is one of feeding, following, rounds, memory; all of them where none is named. Each feed is compared with what the journal's files hold, and
what was followed with the feed. BENCH_FOLDER says where the files go: on a disk, since following syncs. MEASURED has a column for the plain
rates beside it."""

import os
import subprocess
import sys
import tempfile
import time
from collections.abc import Iterable, Iterator, Sequence

from outside import feeds
from outside.bench import inputs
from outside.cases import heed_help
from outside.program import PROGRAM, heading, need_program

# So many events of one write, and of 32 writes with eight steps.
SMALL, LONG = 20_000, 3_000
MEGA = 1e6
# Run by a small process of its own: what a process had before it became another counts with it.
RUN = """
import resource, subprocess, sys, time
began = time.monotonic()
status = subprocess.run(sys.argv[3:], stdin=open(sys.argv[1]), stdout=open(sys.argv[2], "w")).returncode
print(status, time.monotonic() - began, resource.getrusage(resource.RUSAGE_CHILDREN).ru_maxrss)
"""


class Ran:
    """A run of the program: how many seconds it took, and how much memory at most, in MB."""

    def __init__(self, folder: "Folder", words: Sequence[str], given: str = "/dev/null", status: int = 0) -> None:
        self.output = os.path.join(folder.path, "output")
        ran = subprocess.run([sys.executable, "-c", RUN, given, self.output, PROGRAM, *words], capture_output=True, text=True)
        if ran.returncode or int(ran.stdout.split()[0]) != status:
            sys.exit(f"feed: {' '.join(words)} ended with {ran.stdout or ran.returncode}: {ran.stderr[-300:]}")
        self.seconds, self.memory = float(ran.stdout.split()[1]), int(ran.stdout.split()[2]) / 1024

    def text(self) -> bytes:
        with open(self.output, "rb") as file:
            return file.read()


class Folder:
    """A folder on the disk that is measured, and one in memory, where journals are made without waiting for it."""

    def __init__(self, path: str, fast: str) -> None:
        self.path, self.fast, self.made = path, fast, 0

    def name(self, what: str) -> str:
        self.made += 1
        return os.path.join(self.path, f"{what}{self.made}")

    def catalogue(self, points: int) -> str:
        path = os.path.join(self.path, f"{points}.toml")
        with open(path, "w") as file:
            file.write(inputs.catalogue(points))
        return path

    def journal(self, points: int, lines: Iterable[str], with_state: bool = False) -> str:
        """A journal of these requests; in a kept state alone where that is wanted."""
        self.made += 1
        path, given = os.path.join(self.fast, f"journal{self.made}"), os.path.join(self.fast, "lines")
        with open(given, "w") as file:
            file.writelines(line + "\n" for line in lines)
        catalogue = self.catalogue(points)
        Ran(self, ["script", catalogue, path], given)
        if with_state:
            Ran(self, ["adopt", catalogue, catalogue, path])
        return path

    def feed(self, points: int, journal: str, start: int) -> tuple[Ran, str]:
        """A feed, its run, and the file that it is in."""
        ran = Ran(self, ["feed", self.catalogue(points), journal, str(start)])
        place = self.name("feed")
        os.rename(ran.output, place)
        return ran, place

    def follow(self, points: int, feed: str, second: str) -> Ran:
        return Ran(self, ["standby", self.catalogue(points), second], feed)


def table(*columns: str) -> None:
    print("\n| " + " | ".join(columns) + " |\n|" + "---|" * len(columns))


def row(*cells: object) -> None:
    print("| " + " | ".join(str(cell) for cell in cells) + " |", flush=True)


def see_same(journal: str, second: str) -> None:
    """What was followed is what the journal holds."""
    one, other = feeds.pair_of(journal), feeds.pair_of(second)
    first = max(one.before, other.before)
    if one.count != other.count or one.events[first - one.before:] != other.events[first - other.before:]:
        sys.exit(f"feed: the standby has {other.count} events, and not the {one.count} of its source")


def see_fed(journal: str, start: int, feed: str) -> None:
    with open(feed, "rb") as file:
        if file.read() != b"".join(line + b"\n" for line in feeds.pair_of(journal).feed(start)):
            sys.exit("feed: the feed is not what the journal holds")


def journals(folder: "Folder") -> Iterator[tuple[str, int, str]]:
    """What is measured: what it is, its points and its journal."""
    yield f"{SMALL:,} events of one write", 16, folder.journal(16, inputs.submits(SMALL, 16))
    yield f"{LONG:,} events of 32 writes with eight steps", 4096, folder.journal(4096, inputs.full(4096, 2)[:256 + LONG])
    yield "a kept state, 1,024 points with all slots taken", 1024, folder.journal(1024, inputs.full(1024), True)
    yield "a kept state, 4,096 points with all slots taken", 4096, folder.journal(4096, inputs.full(4096), True)


def size_of(path: str) -> int:
    return sum(os.path.getsize(path + part) for part in ("", ".b") if os.path.exists(path + part))


def feeding(folder: "Folder") -> None:
    table("fed", "bytes of the journal's files", "bytes of the feed", "seconds", "MB of feed a second", "seconds of a check")
    for what, points, journal in journals(folder):
        checked = Ran(folder, ["check", folder.catalogue(points), journal])
        ran, feed = folder.feed(points, journal, 0)
        see_fed(journal, 0, feed)
        size = os.path.getsize(feed)
        row(what, f"{size_of(journal):,}", f"{size:,}", f"{ran.seconds:.3f}", f"{size / MEGA / ran.seconds:.0f}", f"{checked.seconds:.3f}")


def synced(path: str, sizes: Iterable[int]) -> float:
    """Seconds of records of these sizes in a file, each synced behind a gate that is then opened with one byte, and synced again."""
    with open(path, "wb", buffering=0) as file:
        gate = file.write(bytes(42)) - 1
        began = time.monotonic()
        for size in sizes:
            os.pwrite(file.fileno(), bytes(size + 5), gate + 1)
            os.fdatasync(file.fileno())
            os.pwrite(file.fileno(), b"\1", gate)
            os.fdatasync(file.fileno())
            gate += size + 5
        return time.monotonic() - began


def following(folder: "Folder") -> None:
    table("followed from nothing", "events", "MB of feed", "seconds", "MB a second", "events a second", "as many records in a file, two syncs each, seconds")
    for what, points, journal in journals(folder):
        _, feed = folder.feed(points, journal, 0)
        second = folder.name("second")
        ran, pair, size = folder.follow(points, feed, second), feeds.pair_of(journal), os.path.getsize(feed) / MEGA
        see_same(journal, second)
        plain = synced(folder.name("plain"), [len(event) for event in pair.events])
        row(what, f"{pair.count:,}", f"{size:.1f}", f"{ran.seconds:.2f}", f"{size / ran.seconds:.1f}",
            f"{len(pair.events) / ran.seconds:,.0f}" if pair.events else "-", f"{plain:.2f}" if pair.events else "-")


def rounds(folder: "Folder") -> None:
    table("a round with nothing new", "check, seconds", "feed from the last event, seconds", "standby, seconds")
    for what, points, journal in journals(folder):
        catalogue, count = folder.catalogue(points), feeds.pair_of(journal).count
        checked = Ran(folder, ["check", catalogue, journal])
        ran, feed = folder.feed(points, journal, count - 1)
        row(what, f"{checked.seconds:.3f}", f"{ran.seconds:.3f}", f"{folder.follow(points, feed, journal).seconds:.3f}")


def memory(folder: "Folder") -> None:
    table("memory", "check, MB at most", "feed, MB at most", "standby, MB at most")
    for what, points, with_state in [("4,096 points, all slots taken, in a log", 4096, False), ("the same in a kept state", 4096, True)]:
        lines = inputs.full(4096)
        journal = folder.journal(points, lines, with_state)
        checked = Ran(folder, ["check", folder.catalogue(points), journal])
        ran, feed = folder.feed(points, journal, 0)
        followed = folder.follow(points, feed, folder.name("second"))
        row(what, f"{checked.memory:.1f}", f"{ran.memory:.1f}", f"{followed.memory:.1f}")


TABLES = {"feeding": feeding, "following": following, "rounds": rounds, "memory": memory}


def main() -> None:
    heed_help(__doc__)
    need_program()
    print(heading() + "\n", flush=True)
    for name in sys.argv[1:] or TABLES:
        with tempfile.TemporaryDirectory(dir=os.environ.get("BENCH_FOLDER")) as path, \
                tempfile.TemporaryDirectory(dir="/dev/shm" if os.path.isdir("/dev/shm") else None) as fast:
            TABLES[name](Folder(path, fast))


if __name__ == "__main__":
    main()
