"""Has each call of the system and each request for memory of the program fail in turn.

Runs the day of the examples again and again, each time with one call of the system failing: in turn each read of the
lines, each write, each look at, opening and read of the catalogue, and each request for memory, with a journal in memory and with one in
files; and then a check of the journal that the day leaves, with each look at, opening and read of it failing, and each request for memory,
and a shift of it, with each request for memory, behind which all of its moments are as they were, or all of them are earlier.
A run has to write a prefix of the right text and to end with the status of the fault; where it could do without the memory, it may also
end with 0, having written the whole text.

Then a server over a journal in files, with each request for memory failing in turn, while one connection attaches, submits, renews and
reads. A line has its right answer, or is told that there was no memory; asked again, it has the right one. Where the connection ends
instead, or the server, its status tells that memory was wanting; and the journal opens to what was acknowledged. Ends with 1 at the first
run that does something else.

It needs strace and a C compiler, and the program built (./bossd; BOSSD names another one)."""

import contextlib
import os
import re
import shutil
import socket
import subprocess
import sys
import tempfile
from collections.abc import Callable, Mapping

from outside.cases import heed_help
from outside.program import EXAMPLES, PATIENCE, PROGRAM, Server, check, eventually, listens, need_program

# The status and the output.
Found = tuple[int, bytes]

CATALOGUE = os.path.realpath(os.path.join(EXAMPLES, "plant.toml"))
LINES = os.path.realpath(os.path.join(EXAMPLES, "day.jsonl"))
DAY = open(os.path.join(EXAMPLES, "day.out"), "rb").read()
# Fifteen requests of the day change something, two of them by the time that passed alone in the evening: the last lease ends at half past six.
CHECKED = b"events 15 now 66600000 leases 0 pending 0\n"
# Its moments are taken back as far as they can be.
BY, EARLIER = "66600000", b"events 16 now 0 leases 0 pending 0\n"

# What fails, by which call of the system on which file, and the status that tells it.
CALLS = [
    ("a read of the lines", "read", LINES, 6),
    ("a write", "write", None, 7),
    ("a look at the catalogue", "statx", CATALOGUE, 5),
    ("an opening of the catalogue", "openat", CATALOGUE, 5),
    ("a read of the catalogue", "read", CATALOGUE, 5),
]
CHECK_CALLS = [("a look at the journal", "statx"), ("an opening of the journal", "openat"), ("a read of the journal", "pread64")]
NO_MEMORY = 8
NO_HOST = 9

# What a connection asks, and the answer to each: moments are the server's own, so that `until` may be any.
FLOOR = os.path.realpath(os.path.join(EXAMPLES, "floor.toml"))
TALK = [
    (b'{"op":"attach","process":"a"}\n', rb'{"ok":"attached","process":"a","next":1}\n'),
    (b'{"op":"submit","seq":1,"writes":[{"point":"lamp","value":1,"priority":8,"lease":600000}]}\n', rb'{"ok":"accepted","txn":1,"until":\d+}\n'),
    (b'{"op":"renew","txn":1,"length":700000}\n', rb'{"ok":"renewed","txn":1,"until":\d+}\n'),
    (b'{"op":"read","point":"lamp"}\n', rb'{"ok":"read","point":"lamp","value":1,"from":"lease","priority":8,"txn":1,"mark":"(?:pending|settled)"}\n'),
]
WANTING = b'{"error":"memory"}\n'

# Lets the Nth request for memory fail, N from FAIL_AT, and tells so in the file FAIL_TOLD.
SHIM = r"""
#define _GNU_SOURCE
#include <dlfcn.h>
#include <errno.h>
#include <fcntl.h>
#include <stdlib.h>
#include <unistd.h>
static long left = -1;
static int fails(void) {
    if (left < 0) { const char *at = getenv("FAIL_AT"); left = at ? atol(at) : 0; }
    if (left == 0 || --left != 0) return 0;
    const char *told = getenv("FAIL_TOLD");
    if (told) close(open(told, O_CREAT | O_WRONLY, 0600));
    errno = ENOMEM;
    return 1;
}
void *malloc(size_t size) {
    static void *(*next)(size_t);
    if (!next) next = dlsym(RTLD_NEXT, "malloc");
    return fails() ? NULL : next(size);
}
void *realloc(void *old, size_t size) {
    static void *(*next)(void *, size_t);
    if (!next) next = dlsym(RTLD_NEXT, "realloc");
    return fails() ? NULL : next(old, size);
}
void *aligned_alloc(size_t align, size_t size) {
    static void *(*next)(size_t, size_t);
    if (!next) next = dlsym(RTLD_NEXT, "aligned_alloc");
    return fails() ? NULL : next(align, size);
}
int posix_memalign(void **to, size_t align, size_t size) {
    static int (*next)(void **, size_t, size_t);
    if (!next) next = dlsym(RTLD_NEXT, "posix_memalign");
    return fails() ? ENOMEM : next(to, align, size);
}
"""


def run(before: list[str], environment: Mapping[str, str], job: str, journal: str) -> Found:
    more = [BY] if job == "shift" else []
    with open(LINES, "rb") as lines:
        done = subprocess.run(
            before + [PROGRAM, job, CATALOGUE, journal, *more],
            stdin=lines, stdout=subprocess.PIPE, stderr=subprocess.DEVNULL,
            env={**os.environ, **environment}, timeout=60)
    return done.returncode, done.stdout


def judge(what: str, nth: int, failed: bool, found: Found, whole: bytes, wanted: int) -> bool:
    status, text = found
    if not failed:
        if found != (0, whole):
            sys.exit(f"faults: nothing failed, but the run ended with {status}")
        return False
    print(f"{what} {nth}: status {status}, {len(text)} bytes")
    if not whole.startswith(text):
        sys.exit(f"faults: {what} {nth}: what was written is no prefix of the right text")
    done_without = wanted == NO_MEMORY and found == (0, whole)
    if status != wanted and not done_without:
        sys.exit(f"faults: {what} {nth}: status {status}, not {wanted}")
    return True


def fail_call(what: str, call: str, path: str | None, wanted: int, scratch: str, job: str = "script", journal: str = "-", whole: bytes = DAY) -> int:
    log = os.path.join(scratch, "log")
    nth = 1
    while True:
        # Bytes of a journal that could not be read ahead are read once more, as far as they are wanted: two reads in a row have to fail.
        when = f"{nth}..{nth + 1}" if call == "pread64" else nth
        inject = ["strace", "-f", "-o", log, "-e", f"trace={call}", "-e", f"inject={call}:error=EIO:when={when}"]
        if path:
            inject += ["-P", path]
        found = run(inject, {}, job, journal)
        failed = re.search(r"\(INJECTED\)", open(log).read()) is not None
        if not judge(what, nth, failed, found, whole, wanted):
            return nth - 1
        nth += 1


def make_shim(scratch: str) -> str:
    source, shim = os.path.join(scratch, "shim.c"), os.path.join(scratch, "shim.so")
    if not os.path.exists(shim):
        with open(source, "w") as file:
            file.write(SHIM)
        subprocess.run(["cc", "-O1", "-shared", "-fPIC", "-o", shim, source, "-ldl"], check=True)
    return shim


def fail_memory(what: str, scratch: str, job: str, journal_of: Callable[[int], str], whole: bytes) -> int:
    shim = make_shim(scratch)
    nth, told = 1, os.path.join(scratch, "told")
    while True:
        found = run([], {"LD_PRELOAD": shim, "FAIL_AT": str(nth), "FAIL_TOLD": told}, job, journal_of(nth))
        failed = os.path.exists(told)
        if failed:
            os.remove(told)
        if not judge(what, nth, failed, found, whole, NO_MEMORY):
            return nth - 1
        nth += 1


def fail_shift(scratch: str, journal: str) -> int:
    """Each request for memory of a shift fails in turn, each time over a copy of this journal. How many there are."""
    def name_of(nth: int) -> str:
        return os.path.join(scratch, f"shifted{nth}")

    def copy_of(nth: int) -> str:
        for end in ("", ".b"):
            if os.path.exists(journal + end):
                shutil.copy(journal + end, name_of(nth) + end)
        return name_of(nth)

    what = "a request for memory in a shift"
    count = fail_memory(what, scratch, "shift", copy_of, b"shifted " + EARLIER)
    for nth in range(1, count + 2):
        opened = run([], {}, "check", name_of(nth))
        if opened not in [(0, EARLIER), *([(0, CHECKED)] if nth <= count else [])]:
            sys.exit(f"faults: {what} {nth}: the journal opens to {opened}")
    return count


def talk(port: int) -> tuple[int, int]:
    """What one connection was answered: how many of its lines had their right answer, and how many were told that there was no memory.
    A line that was told so is asked once more."""
    right = wanting = 0
    with socket.create_connection(("127.0.0.1", port), timeout=20) as connection, connection.makefile("rb") as answers:
        for line, wanted in TALK:
            connection.sendall(line)
            answer = answers.readline()
            if answer == WANTING:
                wanting += 1
                connection.sendall(line)
                answer = answers.readline()
            if answer == b"":
                break
            if not re.fullmatch(wanted, answer):
                sys.exit(f"faults: {line!r} was answered {answer!r}")
            right += 1
    return right, wanting


def serve(journal: str, environment: Mapping[str, str]) -> tuple[int, tuple[int, int]]:
    """A server that serves two connections, the first of which only looks whether it listens. Its status, and what the other one was
    answered."""
    server = Server(FLOOR, journal, workers=1, in_all=2)
    server.launch(env={**os.environ, **environment}, stderr=subprocess.DEVNULL)
    eventually(lambda: server.process.poll() is not None or listens(server.port), PATIENCE)
    told = (0, 0)
    with contextlib.suppress(OSError):
        told = talk(server.port)
    try:
        return server.process.wait(timeout=PATIENCE), told
    except subprocess.TimeoutExpired:
        server.stop()
        sys.exit("faults: a server did not end after its last connection")


def fail_serve(scratch: str) -> int:
    """Each request for memory of a server fails in turn. How many there are."""
    shim, nth, told = make_shim(scratch), 1, os.path.join(scratch, "told")
    while True:
        what, journal = f"a request for memory of a server {nth}", os.path.join(scratch, f"served{nth}")
        status, (right, wanting) = serve(journal, {"LD_PRELOAD": shim, "FAIL_AT": str(nth), "FAIL_TOLD": told})
        failed = os.path.exists(told)
        if failed:
            os.remove(told)
        print(f"{what}: status {status}, {right} right, {wanting} without memory")
        if (status, right, wanting) != (0, len(TALK), 0) and not failed:
            sys.exit(f"faults: {what}: nothing failed")
        # Where listening itself, or taking a connection, wants the memory, it is the host that failed.
        allowed = (0, NO_MEMORY) if right else (NO_MEMORY, NO_HOST)
        if status not in allowed or wanting > 1 or (right < len(TALK) and status == 0):
            sys.exit(f"faults: {what}: not as it has to be")
        # Each of the first three lines changes something, and so does the end of who was attached.
        changes = min(right, 3)
        opened = check(FLOOR, journal) if os.path.exists(journal) else ("journal new", 0)
        wanted = ["journal new", "events 0 "] if changes == 0 else [f"events {changes} ", f"events {changes + 1} "]
        if opened[1] != 0 or not opened[0].startswith(tuple(wanted)):
            sys.exit(f"faults: {what}: {right} lines were answered, and the journal opens to {opened[0]}")
        if not failed:
            return nth - 1
        nth += 1


def main() -> None:
    heed_help(__doc__)
    need_program()
    with tempfile.TemporaryDirectory() as scratch:
        counts = [fail_call(*call, scratch) for call in CALLS]
        counts.append(fail_memory("a request for memory", scratch, "script", lambda nth: "-", DAY))
        # Each run has a journal of its own, and the last one, in which nothing fails, is that of the whole day.

        def journal_of(nth: int) -> str:
            return os.path.join(scratch, f"journal{nth}")

        counts.append(fail_memory("a request for memory, with a journal in files", scratch, "script", journal_of, DAY))
        journal = journal_of(counts[-1] + 1)
        for what, call in CHECK_CALLS:
            counts.append(fail_call(f"{what} in a check", call, journal, 5, scratch, "check", journal, CHECKED))
        counts.append(fail_memory("a request for memory in a check", scratch, "check", lambda nth: journal, CHECKED))
        counts.append(fail_shift(scratch, journal))
        counts.append(fail_serve(scratch))
    if not all(counts):
        sys.exit("faults: a kind of call never failed")
    print(f"faults: {sum(counts)} runs, each as it has to be")


if __name__ == "__main__":
    main()
