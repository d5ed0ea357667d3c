"""Gives the built program journals that are none.

Gives the built program journals that are none: a folder, a file that may not be read, another program's file, four gigabytes of
zeros, also as the second file; a journal that may only be read; and none at all, where none may be made too. Each job has to say so by its line and
status, soon, and to leave the files as they are: a check writes nothing, makes no file, and needs no leave to write. Then it turns each bit of
a pair of files in turn, a journal and a kept state with records behind it: a check has to find each, but for those that docs/FORMATS.md names.
It needs the program built (./bossd; BOSSD names another one)."""

import itertools
import os
import shutil
import subprocess
import sys
import tempfile
from collections.abc import Callable

from outside.cases import heed_help
from outside.program import EXAMPLES, PROGRAM, need_program

FAILED = ("", 5)
REFUSED = ("journal not-a-journal\n", 4)
NEW = ("journal new\n", 0)
# A process was taken on at 0, and that is all.
KEPT = ("events 1 now 0 leases 0 pending 0\n", 0)


def folder(path: str) -> None:
    os.mkdir(path)


def closed(path: str) -> None:
    with open(path, "wb") as file:
        file.write(b"BOSSJRNL")
    os.chmod(path, 0)


def foreign(path: str) -> None:
    with open(path, "wb") as file:
        file.write(b"SQLite format 3\0" + bytes(4080))
    os.chmod(path, 0o666)


def zeros(path: str) -> None:
    with open(path, "wb") as file:
        file.truncate(1 << 32)
    os.chmod(path, 0o666)


def second(make: Callable[[str], object]) -> Callable[[str], None]:
    def make_second(path: str) -> None:
        journal(path)
        make(path + ".b")
    return make_second


def journal(path: str) -> None:
    words = [os.path.join(os.path.dirname(os.path.dirname(path)), name) for name in ("bossd", "plant.toml")]
    subprocess.run([words[0], "script", words[1], path], input=b'{"op":"attach","process":"a"}\n', stdout=subprocess.DEVNULL, check=True)
    os.chmod(path, 0o666)


def read_only(path: str) -> None:
    journal(path)
    os.chmod(path, 0o444)


def nothing(path: str) -> None:
    pass


def nowhere(path: str) -> None:
    os.chmod(os.path.dirname(path), 0o555)


# What stands there, and what a script, a check and a shift write and end with.
CASES = [
    ("a folder", folder, {"script": FAILED, "check": FAILED, "shift": FAILED}),
    ("a file that may not be read", closed, {"script": FAILED, "check": FAILED, "shift": FAILED}),
    ("another program's file", foreign, {"script": REFUSED, "check": REFUSED, "shift": REFUSED}),
    ("four gigabytes of zeros", zeros, {"script": REFUSED, "check": REFUSED, "shift": REFUSED}),
    ("a journal beside a folder", second(folder), {"script": FAILED, "check": FAILED, "shift": FAILED}),
    ("a journal beside a file that may not be read", second(closed), {"script": FAILED, "check": FAILED, "shift": FAILED}),
    ("a journal beside another program's file", second(foreign), {"script": REFUSED, "check": REFUSED, "shift": REFUSED}),
    ("a journal that may only be read", read_only, {"script": FAILED, "check": KEPT, "shift": FAILED}),
    ("no journal", nothing, {"check": NEW}),
    ("no journal where none may be made", nowhere, {"script": FAILED, "check": NEW, "shift": FAILED}),
]


def run(job: str, path: str) -> tuple[str, int, str]:
    # The superuser may read and write everything, so the program runs as somebody else.
    other = ["setpriv", "--reuid=65534", "--regid=65534", "--clear-groups"] if os.geteuid() == 0 else []
    above = os.path.dirname(os.path.dirname(path))
    more = ["1"] if job == "shift" else []
    ran = subprocess.run([*other, os.path.join(above, "bossd"), job, os.path.join(above, "plant.toml"), path, *more],
                         input=b'{"op":"tick"}\n', capture_output=True, timeout=20)
    return ran.stdout.decode(), ran.returncode, ran.stderr.decode()


def state(path: str) -> tuple[int, list[tuple[str, int, int, int, int]]]:
    """What stands in the folder of a journal, and when it was changed."""
    above = os.path.dirname(path)
    found = [(entry.name, entry.stat()) for entry in os.scandir(above)]
    return os.stat(above).st_mtime_ns, sorted((name, it.st_mode, it.st_size, it.st_mtime_ns, it.st_blocks) for name, it in found)


# ---- each bit

# How a check's line begins where this bit of this byte of a file is turned; the last is what it says where none is.
Wanted = Callable[[bytes, int, int, str], str]

HELD = b"""{"op":"attach","process":"a"}
{"at":1000,"op":"submit","writes":[{"point":"air.damper","value":45000,"priority":8,"lease":60000}]}
"""
MORE = b"""{"op":"attach","process":"b"}
{"at":2000,"op":"submit","writes":[{"point":"air.damper","value":30000,"priority":5,"lease":60000}]}
"""
HEADER, STATE_HEAD, SUM = 41, 65, 8


def script(path: str, text: bytes) -> None:
    subprocess.run([PROGRAM, "script", os.path.join(EXAMPLES, "plant.toml"), path], input=text, stdout=subprocess.DEVNULL, check=True)


def check(path: str) -> str:
    ran = subprocess.run([PROGRAM, "check", os.path.join(EXAMPLES, "plant.toml"), path], stdin=subprocess.DEVNULL, capture_output=True, timeout=20)
    return ran.stdout.decode()


def read(path: str) -> bytes:
    with open(path, "rb") as file:
        return file.read()


def write(path: str, data: bytes) -> None:
    with open(path, "wb") as file:
        file.write(data)


def gates(data: bytes, gate: int) -> list[int]:
    """The places of the gates from this one on; the last is shut."""
    found = [gate]
    while data[gate] == 1:
        gate += 5 + int.from_bytes(data[gate + 1:gate + 5], "big")
        found.append(gate)
    return found


def without_sums(data: bytes) -> bytes:
    """The same journal as version 2 has it."""
    older = data[:8] + b"\2" + data[9:HEADER]
    for gate, after in zip(gates(data, HEADER), gates(data, HEADER)[1:]):
        record = data[gate + 5:after - SUM]
        older += b"\1" + len(record).to_bytes(4, "big") + record
    return older + b"\0"


def of_record(all_gates: list[int], before: int, place: int, bit: int, same: str) -> str:
    """How a check's line begins where a bit is turned from the first gate on."""
    if place == all_gates[-1]:
        return f"journal damaged {place}\n" if bit == 0 else same
    if place in all_gates:
        return f"events {before + all_gates.index(place)} "
    return f"journal damaged {max(gate for gate in all_gates if gate < place)}\n"


def of_journal(data: bytes, place: int, bit: int, same: str) -> str:
    """The same of a journal that is alone."""
    if place == 0:
        return same
    if place < 8:
        return "journal not-a-journal\n"
    if place == 8:
        return "journal damaged 41\n" if bit < 2 else "journal version "
    if place < HEADER:
        return "journal catalogue "
    return of_record(gates(data, HEADER), 0, place, bit, same)


def first_gate(data: bytes) -> int:
    """That of a kept state."""
    return STATE_HEAD + SUM + int.from_bytes(data[57:STATE_HEAD], "big")


def of_state(data: bytes, place: int, bit: int, same: str) -> str:
    """The same of a kept state beside the journal that it goes on from."""
    gate = first_gate(data)
    if place == 0:
        return same
    if place == 8 and bit < 2 or STATE_HEAD + SUM <= place < gate:
        return "journal damaged 65\n"
    if place < gate:
        return "journal not-a-journal\n"
    return of_record(gates(data, gate), int.from_bytes(data[49:57], "big"), place, bit, same)


def of_older(data: bytes, place: int, bit: int, same: str) -> str:
    """The same of the journal beside a kept state that goes on from it: no more than its mark counts."""
    return "journal not-a-journal\n" if 1 <= place < 8 else same


def turn(path: str, name: str, wanted: Wanted) -> int:
    """Turns each bit of a file, and compares what a check of the pair says. How many bits that were."""
    data, same = read(name), check(path)
    for place, bit in itertools.product(range(len(data)), range(8)):
        write(name, data[:place] + bytes([data[place] ^ 1 << bit]) + data[place + 1:])
        told, begins = check(path), wanted(data, place, bit, same)
        if not told.startswith(begins):
            sys.exit(f"strange: bit {bit} of byte {place} of {os.path.basename(name)} turned: {told!r}, and not {begins!r}")
    write(name, data)
    return 8 * len(data)


def each_bit(scratch: str) -> None:
    path, other = os.path.join(scratch, "journal"), os.path.join(scratch, "other")
    script(path, HELD)
    count = turn(path, path, of_journal)
    # An older journal goes on as a kept state of the newest version.
    write(other, without_sums(read(path)))
    script(other, MORE)
    write(path + ".b", read(other + ".b"))
    count += turn(path, path + ".b", of_state) + turn(path, path, of_older)
    print(f"strange: {count} bits turned, each as it has to be")


def main() -> None:
    heed_help(__doc__)
    need_program()
    with tempfile.TemporaryDirectory() as scratch:
        # Whoever it runs as has to reach it.
        os.chmod(scratch, 0o755)
        shutil.copy(PROGRAM, os.path.join(scratch, "bossd"))
        shutil.copy(os.path.join(EXAMPLES, "plant.toml"), scratch)
        os.chmod(os.path.join(scratch, "plant.toml"), 0o644)
        for place, (what, make, wanted) in enumerate(CASES):
            path = os.path.join(scratch, str(place), "journal")
            os.mkdir(os.path.dirname(path))
            os.chmod(os.path.dirname(path), 0o777)
            make(path)
            for job, (output, status) in wanted.items():
                before = state(path)
                told, ended, sentence = run(job, path)
                print(f"{job} on {what}: status {ended}: {told}{sentence}", end="")
                if (told, ended) != (output, status) or (status != 0 and not sentence):
                    sys.exit(f"strange: {job} on {what}: not status {status} with {output!r}, and a sentence where it is not 0")
                if state(path) != before:
                    sys.exit(f"strange: {job} on {what}: a file changed or was made")
            os.chmod(os.path.dirname(path), 0o777)
        bits = os.path.join(scratch, "bits")
        os.mkdir(bits)
        each_bit(bits)
    print("strange: each as it has to be")


if __name__ == "__main__":
    main()
