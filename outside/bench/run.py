"""Measures what requests, a journal, a new log and an opening cost, and what memory is taken.

Measures the built program (./bossd; BOSSD names another one) and prints tables, after the date, the commit and the load: instructions a
request, by how many leases are held and how many points there are; what access rules add to a submit; seconds of long runs; what a journal
costs beside syncs of the same file; a log that is begun anew after a kept state; opening a journal again; memory.

    bench/run [TABLE..]

TABLE is one of instructions, rules, seconds, journal, rotation, opening, memory; all of them where none is named. Instructions are counted by valgrind's
callgrind, so they are the same from run to run; everything else is time on this machine."""

import os
import re
import resource
import socket
import subprocess
import sys
import tempfile
import time
from collections.abc import Iterable, Sequence
from typing import Any

from outside.bench import inputs
from outside.cases import heed_help
from outside.program import PROGRAM, Server, heading, need_program, piped

SLOTS = len(inputs.PRIORITIES)
COUNTING = ["valgrind", "--tool=callgrind", "--callgrind-out-file=/dev/null"]


class Folder:
    def __init__(self, path: str) -> None:
        self.path = path

    def file(self, name: str, text: str) -> str:
        path = os.path.join(self.path, name)
        with open(path, "w") as file:
            file.write(text)
        return path

    def catalogue(self, points: int) -> str:
        return self.file(f"{points}.toml", inputs.catalogue(points))

    def run(self, words: Sequence[str], lines: Iterable[str] = (), before: Sequence[str] = ()) -> tuple[str, float]:
        """What a run told on standard error, and how many seconds it took."""
        given = self.file("lines", "".join(line + "\n" for line in lines))
        began = time.monotonic()
        with open(given) as source, open(os.path.join(self.path, "out"), "w") as sink:
            ran = subprocess.run([*before, PROGRAM, *words], stdin=source, stdout=sink, stderr=subprocess.PIPE, text=True)
        if ran.returncode:
            sys.exit(f"run: {' '.join(words)} ended with {ran.returncode}: {ran.stderr[-300:]}")
        return ran.stderr, time.monotonic() - began


def table(*columns: str) -> None:
    print("\n| " + " | ".join(columns) + " |\n|" + "---|" * len(columns))


def row(*cells: object) -> None:
    print("| " + " | ".join(str(cell) for cell in cells) + " |", flush=True)


def collected(told: str) -> int:
    """How many instructions valgrind says that it counted."""
    return int(re.findall(r"Collected : (\d+)", told)[0])


def counted(folder: "Folder", catalogue: str, lines: Iterable[str]) -> int:
    told, _ = folder.run(["script", catalogue, "-"], lines, COUNTING)
    return collected(told)


def instructions(folder: "Folder") -> None:
    table("points", "leases held", "instructions a request")
    for points, leases in [(16, 100), (256, 100), (1024, 100), (1024, 1_000), (1024, 4_000), (1024, 15_000), (4096, 100)]:
        filling, lines = inputs.held(points, leases, 2_000, 1)
        catalogue = folder.catalogue(points)
        more = counted(folder, catalogue, lines) - counted(folder, catalogue, lines[:filling])
        row(points, leases, f"{more / (len(lines) - filling):,.0f}")


class CountedServer(Server):
    """A server over memory with one worker, whose instructions are counted. It ends behind its second connection: the first one shows
    that it listens."""

    def __init__(self, catalogue: str, rules: str) -> None:
        super().__init__(catalogue, workers=1, in_all=2, rules=rules)

    def launch(self, **more: Any) -> None:
        given: dict[str, Any] = {"stdin": subprocess.DEVNULL, "stdout": subprocess.DEVNULL, "stderr": subprocess.PIPE, "text": True, **more}
        self._process = subprocess.Popen([*COUNTING, PROGRAM, *self.words()], **given)

    def spent_on(self, lines: Sequence[str]) -> int:
        """How many instructions it takes for all of its life, with these lines on its last connection, sixteen at a time."""
        with socket.create_connection(("127.0.0.1", self.port)) as connection, connection.makefile("rb") as told:
            for first in range(0, len(lines), 16):
                batch = lines[first : first + 16]
                connection.sendall("".join(line + "\n" for line in batch).encode())
                for line in batch:
                    if b"error" in (answer := told.readline()) or not answer:
                        sys.exit(f"run: {line} was answered {answer!r}")
        _, errors = self.process.communicate()
        return collected(errors)


def rules_file(folder: "Folder", count: int) -> str:
    """A file of so many rules, of which the last one allows everything, and no other is for anybody; `-` for none."""
    if not count:
        return "-"
    nobody = [f'[[rule]]\nprocess = "nobody-{number}"\npoint = "*"\n' for number in range(1, count)]
    return folder.file(f"{count}.rules.toml", "\n".join([*nobody, '[[rule]]\nprocess = "*"\npoint = "*"\n']))


def rules(folder: "Folder") -> None:
    table("writes a submit", "rules", "instructions a submit")
    catalogue = folder.catalogue(256)
    for writes in (1, 32):
        for count in (0, 1, 256):
            spent = []
            for submits in (160, 1_600):
                with CountedServer(catalogue, rules_file(folder, count)) as server:
                    spent.append(server.spent_on(inputs.superseding(submits, writes)))
            row(writes, count, f"{(spent[1] - spent[0]) / 1_440:,.0f}")


def seconds(folder: "Folder") -> None:
    table("run", "seconds")
    _, took = folder.run(["script", folder.catalogue(1), "-"], inputs.reads(1_000_000))
    row("1,000,000 reads of one point", f"{took:.2f}")
    _, took = folder.run(["script", folder.catalogue(1024), "-"], inputs.held(1024, 1_000, 20_000, 1)[1])
    row("20,000 requests of all kinds at 1,024 points", f"{took:.2f}")
    _, took = folder.run(["load", "10000", "7"])
    row("load 10000 7", f"{took:.2f}")


def synced(path: str, records: int) -> float:
    """Seconds of so many records of 44 bytes in a file, each synced behind a gate that is then opened with one byte, and synced again."""
    with open(path, "wb", buffering=0) as file:
        gate = file.write(bytes(42)) - 1
        began = time.monotonic()
        for _ in range(records):
            os.pwrite(file.fileno(), bytes(44), gate + 1)
            os.fdatasync(file.fileno())
            os.pwrite(file.fileno(), b"\1", gate)
            os.fdatasync(file.fileno())
            gate += 44
        return time.monotonic() - began


def journal(folder: "Folder") -> None:
    count = 5_000
    _, kept = folder.run(["script", folder.catalogue(16), os.path.join(folder.path, "j")], inputs.submits(count, 16))
    _, unkept = folder.run(["script", folder.catalogue(16), "-"], inputs.submits(count, 16))
    plain = synced(os.path.join(folder.path, "plain"), count)
    table(f"{count:,} submits", "seconds", "a second")
    for what, took in [("with `-`", unkept), ("with a journal", kept), ("as many records in a file, each with two syncs", plain)]:
        row(what, f"{took:.2f}", f"{count / took:,.0f}")


def answered(program: subprocess.Popen[str], line: str) -> float:
    """Gives a script one line, and tells how many seconds it took until its answer came."""
    began = time.monotonic()
    piped(program.stdin).write(line + "\n")
    piped(program.stdin).flush()
    while not (told := piped(program.stdout).readline()).startswith("{"):
        if not told:
            sys.exit("run: a script ended before its input")
    return time.monotonic() - began


def begun_anew(folder: "Folder", points: int) -> tuple[str, list[float], float]:
    """The name of a journal in which a new log was just begun, with all slots taken; how long the answers of submits took before that,
    and how long the one that began it."""
    path = os.path.join(folder.path, f"full-{points}")
    words = [PROGRAM, "script", folder.catalogue(points), path]
    took = []
    with subprocess.Popen(words, stdin=subprocess.PIPE, stdout=subprocess.PIPE, text=True, bufsize=1 << 20) as program:
        for line in inputs.full(points, 12):
            took.append(answered(program, line))
            if os.path.exists(path + ".b"):
                piped(program.stdin).close()
                piped(program.stdout).read()
                return path, sorted(took[256:-1]), took[-1]
    sys.exit("run: no new log was begun")


def plainly_kept(path: str, size: int) -> tuple[float, float]:
    """Seconds of a plain write of so many bytes to a file, with as many syncs as a kept state has; and of reading it again."""
    began = time.monotonic()
    with open(path, "wb", buffering=0) as file:
        file.write(bytes(1))
        os.fdatasync(file.fileno())
        for _ in range(0, size, 65_536):
            file.write(bytes(65_536))
        os.fdatasync(file.fileno())
        os.pwrite(file.fileno(), b"B", 0)
        os.fdatasync(file.fileno())
    return time.monotonic() - began, plainly_read([path])[1]


def plainly_read(names: Sequence[str]) -> tuple[int, float]:
    """How many bytes these files have, and in how many seconds they are read."""
    began = time.monotonic()
    size = sum(len(open(name, "rb").read()) for name in names if os.path.exists(name))
    return size, time.monotonic() - began


def rotation(folder: "Folder") -> None:
    table("a log begun anew, 1,024 points with all slots taken", "milliseconds")
    path, before, last = begun_anew(folder, 1024)
    size = os.path.getsize(path + ".b")
    written, read = plainly_kept(os.path.join(folder.path, "plain"), size)
    row("half of the submits before it, of 32 writes each: at most", f"{before[len(before) // 2] * 1e3:.2f}")
    row("the slowest of them", f"{before[-1] * 1e3:.2f}")
    row(f"the submit that begins it, behind {size:,} bytes", f"{last * 1e3:.2f}")
    row("a plain write of as many bytes, with three syncs", f"{written * 1e3:.2f}")
    row("a plain read of them", f"{read * 1e3:.2f}")


def spent(folder: "Folder", words: Sequence[str]) -> str:
    """How many milliseconds of processor time a run without lines takes: the least of five."""
    took = []
    for _ in range(5):
        before = resource.getrusage(resource.RUSAGE_CHILDREN)
        folder.run(words)
        after = resource.getrusage(resource.RUSAGE_CHILDREN)
        took.append(after.ru_utime - before.ru_utime + after.ru_stime - before.ru_stime)
    return f"{min(took) * 1e3:.1f}"


def opening(folder: "Folder") -> None:
    table("opening again", "events", "bytes of both files", "seconds", "a plain read of the bytes", "processor ms of a check", "of a script that opens it")
    log = os.path.join(folder.path, "log")
    folder.run(["script", folder.catalogue(16), log], inputs.submits(170_000, 16))
    taken = os.path.join(folder.path, "taken")
    folder.run(["script", folder.catalogue(1024), taken], inputs.full(1024))
    kept, _, _ = begun_anew(folder, 1024)
    for what, points, path in [("a log", 16, log), ("a log that takes all slots", 1024, taken), ("a kept state with all slots taken", 1024, kept)]:
        words = [folder.catalogue(points), path]
        _, took = folder.run(["check", *words])
        with open(os.path.join(folder.path, "out")) as told:
            events = int(told.read().split()[1])
        size, read = plainly_read([path, path + ".b"])
        times = [spent(folder, [job, *words]) for job in ("check", "script")]
        row(what, f"{events:,}", f"{size:,}", f"{took:.3f}", f"{read:.4f}", *times)


# Run by a small process of its own: what a process had before it became another counts with it.
PEAK = """
import resource, subprocess, sys
subprocess.run(sys.argv[3:], stdin=open(sys.argv[1]), stdout=open(sys.argv[2], "w"), check=True)
print(resource.getrusage(resource.RUSAGE_CHILDREN).ru_maxrss)
"""


def most_memory(folder: "Folder", points: int, lines: Iterable[str], journal: str = "-") -> str:
    given = folder.file("lines", "".join(line + "\n" for line in lines))
    words = [given, os.path.join(folder.path, "out"), PROGRAM, "script", folder.catalogue(points), journal]
    ran = subprocess.run([sys.executable, "-c", PEAK, *words], capture_output=True, text=True, check=True)
    return f"{int(ran.stdout) / 1024:.1f}"


def memory(folder: "Folder") -> None:
    table("memory", "MB at most")
    row(f"4,096 points, all slots taken: {4096 * SLOTS:,} leases of eight steps, 256 processes", most_memory(folder, 4096, inputs.full(4096)))
    lines = inputs.held(256, 1_000, 1_000_000, 1)[1]
    # These journals lie in memory where they can: a disk would take an hour.
    with tempfile.TemporaryDirectory(dir="/dev/shm" if os.path.isdir("/dev/shm") else None) as path:
        for count in (10_000, 100_000, 1_000_000):
            row(f"{count:,} requests of all kinds at 256 points, 1,000 leases held", most_memory(folder, 256, lines[:count]))
            row("the same with a journal", most_memory(folder, 256, lines[:count], os.path.join(path, str(count))))


TABLES = {
    "instructions": instructions,
    "rules": rules,
    "seconds": seconds,
    "journal": journal,
    "rotation": rotation,
    "opening": opening,
    "memory": memory,
}


def main() -> None:
    heed_help(__doc__)
    need_program()
    print(heading() + "\n", flush=True)
    for name in sys.argv[1:] or TABLES:
        with tempfile.TemporaryDirectory(dir=os.environ.get("BENCH_FOLDER")) as path:
            TABLES[name](Folder(path))


if __name__ == "__main__":
    main()
