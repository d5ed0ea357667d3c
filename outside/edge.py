"""Tries what the program does where the system refuses files, addresses and room on the disk.

Tries what the program does where the system refuses something, and what it then writes on the standard error: a file that is not
there, may not be read or written, or is none; an address that is taken, foreign or unknown; a journal that another program writes;
a disk of 64 KB that fills. The last one also under the unit's launcher, which ends the program, and once more when there is room again.
It needs the program built (./bossd, or its path in BOSSD), and to mount in a namespace of its own."""

import contextlib
import os
import re
import selectors
import shutil
import signal
import socket
import subprocess
import sys
import tempfile
from collections.abc import Iterator, Sequence

from outside import TOP
from outside.cases import Wrong, heed_help, see
from outside.program import piped

# The output, the status and what was said aside.
Ended = tuple[bytes, int, str]

BUILT = os.environ.get("BOSSD") or os.path.join(TOP, "crates", "bossd", "out", "bossd")
LAUNCHER = os.path.join(TOP, "packaging", "bossd-serve")
PATIENCE = 20
ATTACH = b'{"op":"attach","process":"a"}\n'
ATTACHED = b'{"ok":"attached","process":"a","next":1}\n'
SUBMIT = b'{"op":"submit","writes":[{"point":"hall.lamp","value":1,"lease":60000}]}\n'
STOPPED = b'{"error":"stopped"}\n'
FILE_FAULT = "bossd: a file failed, as an earlier line says; mend that and start again\n"
LISTENING = re.compile(r"bossd: listening at (127\.0\.0\.1):(\d+): points (\d+), drivers (\d+), events (\d+), version (\S+), now (\d+), with(?:out)? keys\n")


def host_fault(address: str) -> str:
    return (f"bossd: no connection could be taken at {address}, as an earlier line says; it has to be an address of this machine "
            "with a free port, as 127.0.0.1:7000\n")


class Place:
    """A folder with the program, a catalogue, and a folder for journals in which everybody may write."""

    def __init__(self, path: str) -> None:
        self.path = path
        os.chmod(path, 0o755)
        self.program = os.path.join(path, "bossd")
        shutil.copy(BUILT, self.program)
        os.chmod(self.program, 0o755)
        self.catalogue = os.path.join(path, "plant.toml")
        shutil.copy(os.path.join(TOP, "examples", "plant.toml"), self.catalogue)
        os.chmod(self.catalogue, 0o644)
        self.journals = os.path.join(path, "journals")
        os.mkdir(self.journals)
        os.chmod(self.journals, 0o777)
        self.made = 0

    def new_name(self) -> str:
        self.made += 1
        return os.path.join(self.journals, f"journal{self.made}")

    def words(self, job: str, journal: str, *more: object) -> list[str]:
        return [self.program, job, self.catalogue, journal, *map(str, more)]


def run(words: Sequence[str], lines: bytes = b"", before: Sequence[str] = ()) -> Ended:
    ran = subprocess.run([*before, *words], input=lines, capture_output=True, timeout=PATIENCE)
    return ran.stdout, ran.returncode, ran.stderr.decode()


def see_run(what: str, ran: Ended, status: int, aside: str, output: bytes = b"") -> None:
    see(ran == (output, status, aside), f"{what}: not status {status}, {output!r} and {aside!r}, but {ran!r}")
    print(f"{what}: status {status}: {aside}", end="" if aside else "\n")


class Server:
    """A server that listens at a port that the system chose, after these lines."""

    def __init__(self, words: Sequence[str], before: Sequence[str] = ()) -> None:
        self.process = subprocess.Popen(words, stdin=subprocess.DEVNULL, stdout=subprocess.PIPE, stderr=subprocess.PIPE)
        try:
            for line in before:
                see(self.line() == line, f"a server does not say first: {line}")
            found = LISTENING.fullmatch(self.line())
            if found is None:
                raise Wrong("a server does not say first where it listens")
        except BaseException:
            self.end()
            raise
        self.address = (found[1], int(found[2]))

    def line(self) -> str:
        """The next line of its standard error."""
        with selectors.DefaultSelector() as ready:
            ready.register(piped(self.process.stderr), selectors.EVENT_READ)
            see(ready.select(PATIENCE), "a server does not write a line that is awaited")
        return piped(self.process.stderr).readline().decode()

    def end(self) -> None:
        self.process.send_signal(signal.SIGKILL)
        self.process.communicate()


@contextlib.contextmanager
def serving(words: Sequence[str], before: Sequence[str] = ()) -> Iterator[Server]:
    server = Server(words, before)
    try:
        yield server
    finally:
        server.end()


class Client:
    def __init__(self, address: tuple[str, int]) -> None:
        self.socket = socket.create_connection(address, PATIENCE)
        self.socket.settimeout(PATIENCE)
        self.lines = self.socket.makefile("rb")

    def ask(self, line: bytes) -> bytes:
        self.socket.sendall(line)
        return self.lines.readline()


def missing_files(place: Place) -> None:
    nowhere = os.path.join(place.path, "nowhere")
    journal = place.new_name()
    see_run("a catalogue that is not there", run([place.program, "script", nowhere, journal], ATTACH), 5,
            f"bossd: the file {nowhere} could not be read: No such file or directory (os error 2)\n{FILE_FAULT}")
    see_run("a catalogue that is a folder", run([place.program, "check", place.journals, journal]), 5,
            f"bossd: the file {place.journals} could not be read: Is a directory (os error 21)\n{FILE_FAULT}")
    see_run("a journal that is a folder", run(place.words("check", place.journals)), 5,
            f"bossd: the journal {place.journals} could not be opened: it is not a plain file\n{FILE_FAULT}")
    inside = os.path.join(nowhere, "journal")
    see_run("a journal in a folder that is not there", run(place.words("script", inside), ATTACH), 5,
            f"bossd: the journal {inside} could not be written, so nothing is kept from here on: "
            f"No such file or directory (os error 2)\n{FILE_FAULT}")
    see(not os.path.exists(journal), "a journal was made without a catalogue")


def refused_catalogues(place: Place) -> None:
    """Mistakes that people make: a number with a point, a key that is misspelt, a table that is broken, a default that is none."""
    path = os.path.join(place.path, "refused.toml")
    lint = f"bossctl lint {path} names the line, the key and what may stand there\n"
    for what, old, new, line, point in [
        ("a number with a point", "min = 0\n", "min = 0.0\n", "bad-kind 0", "air.damper"),
        ("a key that is misspelt", 'kind = "binary"', 'knid = "binary"', "bad-kind 4", "hall.lamp"),
        ("a default past the greatest value", "default = 20000", "default = 200000", "bad-default 0", "air.damper"),
        ("a table that is broken", "[[point]]", "[[point]", "not-toml", None),
    ]:
        with open(place.catalogue) as file:
            text = file.read()
        see(old in text, f"the small plant has no {old!r}")
        with open(path, "w") as file:
            file.write(text.replace(old, new, 1))
        why = f"was refused for its point {point}" if point else "was refused, as its line says"
        see_run(what, run([place.program, "script", path, "-"]), 3, f"bossd: the catalogue {path} {why}; {lint}", f"catalogue {line}\n".encode())


def wrong_name(place: Place) -> None:
    journal = place.new_name()
    none = f"bossd: neither {journal} nor {journal}.b exists: there is no journal of that name yet\n"
    see_run("a check of a journal that is not there", run(place.words("check", journal)), 0, none, b"journal new\n")
    see_run("a check of a journal in memory", run(place.words("check", "-")), 0, "", b"journal new\n")
    output, status, aside = run(place.words("script", journal), ATTACH)
    see(output.endswith(ATTACHED) and (status, aside) == (0, ""), f"a new journal: {status}, {output!r}, {aside!r}")
    see_run("a check of it", run(place.words("check", journal)), 0, "", b"events 1 now 0 leases 0 pending 0\n")


def no_permission(place: Place) -> None:
    # The superuser may read and write everything, so the program runs as somebody else.
    other = ["setpriv", "--reuid=65534", "--regid=65534", "--clear-groups"] if os.geteuid() == 0 else []
    refused = "Permission denied (os error 13)\n" + FILE_FAULT
    journal = place.new_name()
    see(run(place.words("script", journal), ATTACH)[1] == 0, "no journal could be made")
    os.chmod(journal, 0o444)
    see_run("a journal that may not be written", run(place.words("script", journal), ATTACH, other), 5,
            f"bossd: the journal {journal} could not be written, so nothing is kept from here on: {refused}")
    os.chmod(journal, 0)
    see_run("a journal that may not be read", run(place.words("check", journal), b"", other), 5,
            f"bossd: the journal {journal} could not be opened: {refused}")
    closed = os.path.join(place.path, "closed.toml")
    shutil.copy(place.catalogue, closed)
    os.chmod(closed, 0)
    see_run("a catalogue that may not be read", run([place.program, "check", closed, "-"], b"", other), 5,
            f"bossd: the file {closed} could not be read: {refused}")


def addresses(place: Place) -> None:
    with serving(place.words("serve", "-", "127.0.0.1:0", 1, 1)) as server:
        taken = "{}:{}".format(*server.address)
        for what, address, reason in [
            ("a port that is taken", taken, r"Address already in use \(os error 98\)"),
            ("no port", "127.0.0.1", r"invalid socket address"),
            ("an address of another machine", "192.0.2.1:7000", r"Cannot assign requested address \(os error 99\)"),
            ("a host that nobody knows", "nobody.invalid:7000", r"failed to lookup address information.*"),
        ]:
            output, status, aside = run(place.words("serve", "-", address, 1, 1))
            wanted = re.escape(f"bossd: could not listen at {address}: ") + reason + "\n" + re.escape(host_fault(address))
            see((output, status) == (b"", 9) and re.fullmatch(wanted, aside), f"{what}: status {status}, {output!r}, {aside!r}")
            print(f"{what}: status {status}: {aside}", end="")


def files_of(journal: str) -> list[bytes | None]:
    return [open(name, "rb").read() if os.path.exists(name) else None for name in (journal, journal + ".b")]


def two_programs(place: Place) -> None:
    """While a server writes a journal no other program may write it, and a check reads it."""
    journal = place.new_name()
    with serving(place.words("serve", journal, "127.0.0.1:0", 2, 10)) as server:
        client = Client(server.address)
        see(client.ask(ATTACH) == ATTACHED, "a server did not answer")
        before = files_of(journal)
        held = (f"bossd: the journal {journal} could not be written, so nothing is kept from here on: "
                f"process {server.process.pid} (bossd) writes it\n{FILE_FAULT}")
        see_run("a second server", run(place.words("serve", journal, "127.0.0.1:0", 1, 1)), 5, held)
        see_run("a script beside a server", run(place.words("script", journal), ATTACH), 5, held)
        told, status, aside = run(place.words("check", journal))
        see((status, aside) == (0, "") and told.startswith(b"events 1 "), f"a check beside a server: {status}, {told!r}, {aside!r}")
        see(files_of(journal) == before, "a second program changed a journal")
        see(b'"ok":"accepted"' in client.ask(SUBMIT), "a server was hindered by another program")
    told, status, aside = run(place.words("script", journal), b'{"op":"tick"}\n')
    see((status, aside) == (0, ""), f"a journal is held after its server was killed: {status}, {aside!r}")
    print("after its server was killed: the journal is free")


# Runs the words that follow with a folder that is a disk of 64 KB, which only they see.
ON_SMALL_DISK = ["unshare", "--mount", *(["--map-root-user"] if os.geteuid() else []), "sh", "-c",
                 'mount -t tmpfs -o size=64k tmpfs "$0" && exec "$@"']
# Runs the words that follow where the process of the number before them is, and sees that disk.
BESIDE = ["nsenter", "--mount", *(["--user", "--preserve-credentials"] if os.geteuid() else []), "--target"]


def full(journal: str) -> str:
    return (f"bossd: the journal {journal} could not be written, so nothing is kept from here on: "
            "No space left on device (os error 28)\n")


def small_disk(place: Place) -> None:
    """A disk of 64 KB that fills: a server says so at once, and runs on."""
    before = [*ON_SMALL_DISK, place.journals]
    journal = place.new_name()
    lines = ATTACH + SUBMIT * 2000
    output, status, aside = run(place.words("script", journal), lines, before)
    see(status == 5 and output.endswith(STOPPED) and aside == full(journal) + FILE_FAULT,
        f"a script on a disk that fills: {status}, {aside!r}")
    print(f"a script on a disk that fills: status {status}: {aside}", end="")
    with serving([*before, *place.words("serve", journal, "127.0.0.1:0", 2, 10)]) as server:
        idle, client = Client(server.address), Client(server.address)
        see(client.ask(ATTACH) == ATTACHED, "a server on a small disk did not answer")
        answer = next((it for it in (client.ask(SUBMIT) for _ in range(2000)) if it == STOPPED), None)
        see(answer, "a small disk never filled")
        see(server.line() == full(journal), "a server does not say that its disk failed")
        see(server.process.poll() is None, "a server ended with its first worker")
        see(idle.ask(ATTACH) == STOPPED, "a request was not stopped after the disk had failed")
    print(f"a server on a disk that fills, at once: {full(journal)}", end="")


@contextlib.contextmanager
def a_small_disk(place: Place) -> Iterator[list[str]]:
    """The words that go before others which see the folder for journals as one disk of 64 KB, as long as this lasts."""
    holder = subprocess.Popen([*ON_SMALL_DISK, place.journals, "sh", "-c", "echo; exec cat"],
                              stdin=subprocess.PIPE, stdout=subprocess.PIPE)
    try:
        see(piped(holder.stdout).readline() == b"\n", "no small disk could be made")
        yield [*BESIDE, str(holder.pid)]
    finally:
        holder.communicate()


VERSION = "bossd-serve: bossd without a package\n"
UNRULED = "bossd-serve: no access rules: every program that connects may write every point at every level\n"
# What it says on a disk of 64 KB. tools/attack has a disk with room for a reserve.
SMALL = [VERSION, "bossd-serve: no reserve is kept for a full disk: less than 96 MiB are free\n", UNRULED]
ENDED = "bossd-serve: a disk failed, so the program is ended, to be started again\n"


def submitted(client: Client) -> int:
    """How many submits, one after another, are acknowledged before one is stopped or gets no answer."""
    for number in range(1, 2000):
        answer = client.ask(SUBMIT)
        if b'"ok":"accepted"' not in answer:
            see(answer in (STOPPED, b""), f"a submit on a disk that fills was answered {answer!r}")
            return number - 1
        see(f'"txn":{number},'.encode() in answer, f"not transaction {number}: {answer!r}")
    raise Wrong("a small disk never filled")


def see_ended(server: Server, journal: str, how: str) -> None:
    """A server whose disk failed is ended by its launcher, which says why."""
    see(server.line() == full(journal), f"a launcher does not hand on that a disk failed, {how}")
    see(server.line() == ENDED, f"a launcher does not say that it ended the program, {how}")
    see(server.process.wait(PATIENCE) == -signal.SIGKILL, f"a program whose disk failed was not killed, {how}")


def launcher(place: Place) -> None:
    """The unit's launcher has the program's status and signals. It ends a program whose disk failed; started again it does so again
    while the disk is full, and serves all that was acknowledged once there is room."""
    journal, nowhere = place.new_name(), os.path.join(place.path, "nowhere", "journal")
    see_run("a launcher of a program that fails", run([LAUNCHER, *place.words("check", place.journals)]), 5,
            f"{VERSION}bossd: the journal {place.journals} could not be opened: it is not a plain file\n{FILE_FAULT}")
    see_run("a launcher of a program that can't write", run([LAUNCHER, *place.words("serve", nowhere, "127.0.0.1:0", 1, 1)]), 5,
            f"{VERSION}{UNRULED}bossd: the journal {nowhere} could not be written, so nothing is kept from here on: "
            f"No such file or directory (os error 2)\n{FILE_FAULT}")
    with a_small_disk(place) as before:
        words = [*before, LAUNCHER, *place.words("serve", journal, "127.0.0.1:0", 2, 10)]
        filler = os.path.join(place.journals, "filler")
        see(run([*before, "sh", "-c", 'head -c 32768 /dev/zero >"$0"', filler])[1] == 0, "half of a small disk could not be filled")
        with serving(words, SMALL) as server:
            client = Client(server.address)
            see(client.ask(ATTACH) == ATTACHED, "a server under its launcher did not answer")
            kept = submitted(client)
            see_ended(server, journal, "at first")
        with serving(words, SMALL) as server:
            client = Client(server.address)
            see(client.ask(status_of(kept)).startswith(b'{"ok":"status"'), "what was acknowledged is gone while a disk is full")
            client.ask(ATTACH)
            client.ask(SUBMIT)
            see_ended(server, journal, "while it is full")
        see(run([*before, "rm", filler])[1] == 0, "no room could be made")
        with serving(words, SMALL) as server:
            client = Client(server.address)
            see_kept(client, kept)
            server.process.send_signal(signal.SIGTERM)
            see(server.process.wait(PATIENCE) == -signal.SIGTERM, "a launcher keeps a signal from the program")
    print(f"a launcher over a disk that fills: ended by signal 9 after {kept} acknowledged submits, and once more; after room was made "
          "all of them are there")


def pages_in_memory(path: str, before: Sequence[str] = ()) -> bytes:
    """How many pages of a file the system has in memory."""
    return run([*before, "fincore", "--noheadings", "--output=PAGES", path])[0].strip()


def read_anew(place: Place) -> None:
    """The unit's launcher has a journal read from the disk, and not from memory, as far as the file system drops what it has there."""
    plain, journal = (os.path.join(place.path, name) for name in ("plain", "kept"))
    for path in (plain, journal):
        with open(path, "wb") as file:
            file.write(bytes(65_536))
            file.flush()
            os.fsync(file.fileno())
    see(pages_in_memory(journal) == b"16", "a new file is not in memory")
    with open(plain, "rb") as file:
        os.posix_fadvise(file.fileno(), 0, 0, os.POSIX_FADV_DONTNEED)
    # The launcher takes the third word after the program for the journal.
    kept, dropped = pages_in_memory(journal, [LAUNCHER]), pages_in_memory(plain)
    see(kept == dropped, f"{kept!r} pages of a journal are left in memory, not {dropped!r}")
    print(f"a launcher before its program: {kept.decode()} pages of a journal are left in memory")


def status_of(transaction: int) -> bytes:
    return f'{{"op":"status","txn":{transaction}}}\n'.encode()


def see_kept(client: Client, count: int) -> None:
    """So many submits are there, or one more, which was not acknowledged; and the next one is made."""
    for number in range(1, count + 1):
        stage = "run" if number == count else "done"
        answer = client.ask(status_of(number))
        see(f'"txn":{number},"owner":"a","stage":"'.encode() in answer, f"transaction {number} of {count} was lost: {answer!r}")
    see(b'"ok":"attached"' in client.ask(ATTACH), "no process could attach after room was made")
    answer = client.ask(SUBMIT)
    see(any(f'"ok":"accepted","txn":{number},'.encode() in answer for number in (count + 1, count + 2)),
        f"a submit after room was made: {answer!r}")


def main() -> None:
    heed_help(__doc__)
    if not os.path.exists(BUILT):
        sys.exit("edge: the program is not built: run tools/build")
    with tempfile.TemporaryDirectory() as scratch:
        place = Place(scratch)
        try:
            for tried in (missing_files, refused_catalogues, wrong_name, no_permission, addresses, two_programs, small_disk, launcher, read_anew):
                tried(place)
        except Wrong as wrong:
            sys.exit(f"edge: {wrong}")
    print("edge: each as it has to be")


if __name__ == "__main__":
    main()
