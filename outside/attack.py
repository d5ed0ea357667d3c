"""Attacks what stands around the proved program: its scripts, its launcher, and the program itself on loopback.

Attacks what stands around the proved program: the scripts and the launcher of packaging/, and the built program on loopback, as another
user of the machine would, or as a bad day does.

    tools/attack [NAME ..]

Each case is a function in AS_ROOT or AS_ANYBODY, or in outside/attack_keys.py, and has the name by which it can be run alone. It is given a place of its own and raises
Wrong where something is not as it has to be; what it returns is printed. Those of AS_ROOT play root and another user, and are left out where
somebody else runs this, and so are those of keys where the program takes no file of them. It needs the program built (./bossd; BOSSD names another one). It ends with 1 where a case fails; the others are run
all the same."""

import contextlib
import fcntl
import json
import os
import pty
import re
import select
import shutil
import signal
import socket
import struct
import subprocess
import sys
import tempfile
import threading
import time
from typing import Callable, Dict, Iterator, List, Mapping, NamedTuple, Optional, Sequence, Tuple

from outside import CLIENT, TOP, modbus
from outside.cases import Wrong, heed_help, see
from outside.clock import HOUR, YEAR, Clocks
from outside.program import EXAMPLES, PROGRAM, check, eventually, free_port, need_program

PACKAGING = os.path.join(TOP, "packaging")
CHANGE, LAUNCHER, FEED = (os.path.join(PACKAGING, name) for name in ("change-catalogue", "bossd-serve", "bossd-feed"))
# The user of the unit, in whose folder the journal lies, and the group of that number.
SERVICE = 65534
# How long a script may take, in seconds, also where somebody wants it to wait for ever. Its own longest wait is 10.
SOON = 60
ATTACH = b'{"op":"attach","process":"comfort"}\n'
HOLD = b'{"op":"submit","writes":[{"point":"air.damper","value":60000,"lease":3600000}]}\n'
SECRET = "the secret of root"


class Ended(NamedTuple):
    """How a script ended, and what it said."""
    status: int
    output: str
    errors: str


def as_service(*words: str) -> List[str]:
    """These words, run as the user of the unit, or as who runs this, who is nobody else then."""
    return list(words) if os.geteuid() != 0 else ["setpriv", f"--reuid={SERVICE}", f"--regid={SERVICE}", "--clear-groups", *words]


def write(path: str, text: str, mode: int = 0o644, owner: int = 0) -> str:
    """A file of this text, mode and owner."""
    with open(path, "w", encoding="utf-8") as file:
        file.write(text)
    os.chmod(path, mode)
    if os.geteuid() == 0:
        os.chown(path, owner, owner)
    return path


def text_of(path: str) -> str:
    with open(path, encoding="utf-8", errors="replace") as file:
        return file.read()


class Place:
    """A small system of its own: the program, the catalogue in a folder of root's, the journal in a folder of the unit's user, a folder for
    what is copied aside, and a `systemctl` that notes its words and then runs `at_stop`, `at_start`, if these are there."""

    def __init__(self, path: str) -> None:
        self.path = path
        os.chmod(path, 0o755)
        self.program = os.path.join(path, "bossd")
        shutil.copy(PROGRAM, self.program)
        os.chmod(self.program, 0o755)
        for name in ("etc", "bin", "var"):
            os.mkdir(os.path.join(path, name))
            os.chmod(os.path.join(path, name), 0o755)
        self.folder, self.aside, self.calls = (os.path.join(path, name) for name in ("var", "aside", "calls"))
        if os.geteuid() == 0:
            os.chown(self.folder, SERVICE, SERVICE)
        self.journal = os.path.join(self.folder, "journal")
        self.plant = text_of(os.path.join(EXAMPLES, "plant.toml"))
        self.catalogue = write(os.path.join(path, "etc", "plant.toml"), self.plant)
        self.new = write(os.path.join(path, "etc", "new.toml"), self.plant.replace("default = 20000", "default = 21000", 1))
        see(text_of(self.new) != self.plant, "the small plant has no default of 20000")
        write(os.path.join(path, "bin", "systemctl"),
              f'#!/bin/sh\necho "$@" >>{self.calls}\n[ ! -x {path}/at_$1 ] || exec {path}/at_$1\n', 0o755)
        self.victim = write(os.path.join(path, "victim"), SECRET, 0o600)

    def begin(self) -> None:
        """A journal in which `comfort` holds the damper."""
        self.script(self.catalogue, ATTACH + HOLD)

    def script(self, catalogue: str, lines: bytes) -> None:
        subprocess.run(as_service(self.program, "script", catalogue, self.journal), input=lines, stdout=subprocess.DEVNULL, check=True)

    def check(self, catalogue: str) -> str:
        """What a check of the journal says."""
        return str(check(catalogue, self.journal)[0])

    def at(self, what: str, commands: str) -> None:
        """What the attacker does, as the unit's user and in the folder of the journal, while systemctl does this."""
        script = write(os.path.join(self.path, f"does_{what}"), f"cd {self.folder}\n{commands}\n")
        write(os.path.join(self.path, f"at_{what}"), f"#!/bin/sh\nexec {' '.join(as_service('sh', script))}\n", 0o755)

    def on(self, job: str, commands: str) -> str:
        """A program that does this in place of a job, with the words that it is given, and all others as bossd does. It is the unit's user who
        runs it, who may do all of that in any process of his."""
        return write(os.path.join(self.path, f"on_{job}"),
                     f'#!/bin/sh\n[ "$1" = {job} ] || exec {self.program} "$@"\ncd {self.folder}\n{commands}\n', 0o755)

    def settings(self, program: Optional[str] = None, **more: str) -> Dict[str, str]:
        """The environment of bossd-change-catalogue here."""
        return {**os.environ, "BOSSD": program or self.program, "BOSSCTL": os.path.join(self.path, "nothing"), "OLD": self.catalogue,
                "JOURNAL": self.journal, "SETTINGS": os.path.join(self.path, "settings"), "ASIDE": self.aside,
                "LOCK": os.path.join(self.path, "lock"), "PATH": f"{self.path}/bin:{os.environ['PATH']}", **more}

    def change(self, *words: str, program: Optional[str] = None) -> Ended:
        """bossd-change-catalogue, with the new catalogue where no words are given."""
        return run([CHANGE, *(words or (self.new,))], self.settings(program))

    def copies(self) -> List[str]:
        """The folders of what was copied aside."""
        return sorted(os.listdir(self.aside)) if os.path.exists(self.aside) else []

    def ran(self, *words: str) -> bool:
        """Whether systemctl was told this."""
        return os.path.exists(self.calls) and " ".join(words) in text_of(self.calls).splitlines()


def run(words: List[str], environment: Mapping[str, str], given: bytes = b"") -> Ended:
    """How these words end, and soon. Wrong where they do not."""
    process = subprocess.Popen(words, env=dict(environment), stdin=subprocess.PIPE, stdout=subprocess.PIPE, stderr=subprocess.PIPE,
                               start_new_session=True)
    try:
        output, errors = process.communicate(given, SOON)
    except subprocess.TimeoutExpired:
        os.killpg(process.pid, signal.SIGKILL)
        process.communicate()
        raise Wrong(f"{os.path.basename(words[0])} has not ended after {SOON} seconds") from None
    return Ended(process.returncode, output.decode(errors="replace"), errors.decode(errors="replace"))


def see_untouched(place: Place) -> None:
    """The file of root's is as it was."""
    stat = os.stat(place.victim)
    see((text_of(place.victim), stat.st_uid, stat.st_mode & 0o777) == (SECRET, 0, 0o600),
        f"a file of root's now has owner {stat.st_uid}, mode {stat.st_mode & 0o777:o} and {text_of(place.victim)[:20]!r}")


def see_running(place: Place) -> None:
    """The unit was started if it was stopped."""
    see(not place.ran("stop bossd") or place.ran("start bossd"), "the unit was left stopped")


# ---- bossd-change-catalogue

def write_through_link(place: Place) -> str:
    """The journal's user wants root to write a file of root's: a link under the name of the copy that is put back."""
    place.begin()
    ended = place.change(program=place.on("adopt", f"ln -s {place.victim} journal.changing; echo other >journal; exit 15"))
    see_untouched(place)
    see(ended.status == 15, f"status {ended.status}: {ended.errors}")
    see("leases 1" in place.check(place.catalogue), "the journal was not put back")
    see_running(place)
    return "a file of root's is as it was, and the journal was put back"


def read_through_link(place: Place) -> str:
    """He wants to read one: a link under the journal's name, and a file of his that he holds open under that of the copy."""
    place.begin()
    place.at("stop", f"mv journal away; ln -s {place.victim} journal")
    hold = "rm journal; exec 5<>journal.changing; echo other >journal; (sleep 3; cat <&5 >stolen) >/dev/null 2>&1 & exit 15"
    ended = place.change(program=place.on("adopt", hold))
    time.sleep(4)
    stolen = os.path.join(place.folder, "stolen")
    see(not os.path.exists(stolen) or SECRET not in text_of(stolen), "a file of root's was read")
    see_untouched(place)
    see(ended.status == 1, f"status {ended.status}: {ended.errors}")
    see_running(place)
    return "nothing of root's was read; the unit was started again"


def pipe_as_journal(place: Place) -> str:
    """A pipe under the journal's name, from the beginning or while the unit is stopped: nothing waits for its other end."""
    for name in ("journal", "journal.b"):
        os.mkfifo(os.path.join(place.folder, name))
        os.chown(os.path.join(place.folder, name), SERVICE, SERVICE)
        ended = place.change()
        see(ended.status == 1 and "no plain file" in ended.errors, f"{name}: status {ended.status}: {ended.errors}")
        see(not place.ran("stop bossd"), "the unit was stopped for it")
        os.remove(os.path.join(place.folder, name))
    place.begin()
    place.at("stop", "rm journal; mkfifo journal")
    ended = place.change()
    see(ended.status == 1 and "no plain file" in ended.errors, f"at the stop: status {ended.status}: {ended.errors}")
    see(place.ran("start bossd"), "the unit was not started again")
    return "refused, before the unit is stopped where it is there already"


def journal_of_others(place: Place) -> str:
    """A link, a file of root's, and a second name of one, under the journal's name."""
    kinds: List[Tuple[str, Callable[[str], object]]] = [
        ("a link", lambda path: os.symlink(place.victim, path)), ("another name of root's file", lambda path: os.link(place.victim, path)),
        ("a file of root's", lambda path: write(path, "x")), ("a folder", os.mkdir), ("a link to nothing", lambda path: os.symlink("x", path)),
    ]
    for what, make in kinds:
        make(place.journal)
        ended = place.change()
        see(ended.status == 1 and "no plain file" in ended.errors, f"{what}: status {ended.status}: {ended.errors}")
        (os.rmdir if what == "a folder" else os.remove)(place.journal)
    see_untouched(place)
    see(not place.ran("stop bossd"), "the unit was stopped for it")
    return "all refused while the unit runs"


def catalogue_of_others(place: Place) -> str:
    """The new catalogue lies in another user's folder, and is a link to a file of root's, or a pipe."""
    program = place.on("check", f'cat "$2" >>seen 2>/dev/null; exec {place.program} "$@"')
    link, pipe, plain = (os.path.join(place.folder, name) for name in ("link.toml", "pipe.toml", "plain.toml"))
    os.symlink(place.victim, link)
    os.mkfifo(pipe)
    os.chown(pipe, SERVICE, SERVICE)
    for path in (link, pipe):
        see(place.change(path, program=program).status != 0, f"{path} was taken")
    seen = os.path.join(place.folder, "seen")
    see(not os.path.exists(seen) or SECRET not in text_of(seen), "a file of root's was shown to the program")
    shutil.copy(place.new, plain)
    os.chown(plain, SERVICE, SERVICE)
    place.begin()
    ended = place.change(plain)
    see(ended.status == 0, f"a plain file there: status {ended.status}: {ended.errors}")
    return "no link of theirs is followed; a plain file is taken"


def what_a_child_has(place: Place) -> str:
    """What runs as the journal's user has nothing of root's, which other processes of that user could take from it."""
    place.begin()
    write(os.path.join(place.path, "hides"), "")
    program = place.on("check", f'cat /proc/self/status /proc/$$/stat; tr "\\0" "\\n" </proc/$$/environ; ls -l /proc/$$/fd; '
                                f'{place.program} "$@"')
    seen = os.path.join(place.folder, "seen")
    program = write(program, text_of(program).replace("cat /proc", f"{{ cat /proc", 1).replace("/fd; ", f"/fd; }} >{seen}; exec ", 1), 0o755)
    other, mine = pty.openpty()
    process = subprocess.Popen([CHANGE, place.new], env=place.settings(program, PASSWORD=SECRET), stdin=mine, stdout=mine, stderr=mine,
                               start_new_session=True, preexec_fn=lambda: fcntl.ioctl(0, 0x540E, 0))
    os.close(mine)
    drain(other)
    see(process.wait(SOON) == 0, f"status {process.returncode}")
    told = text_of(seen)
    for name in ("CapInh", "CapPrm", "CapEff", "CapBnd", "CapAmb"):
        see(re.search(rf"^{name}:\s+0+$", told, re.M), f"a child has capabilities: {name}")
    see(re.search(r"^NoNewPrivs:\s+1$", told, re.M), "a child may gain privileges")
    see(SECRET not in told, "a child has root's environment")
    number, session, terminal = re.search(r"^(\d+) \(\S+\) \S \d+ \d+ (\d+) (-?\d+) ", told, re.M).groups()  # type: ignore[union-attr]
    see((session, terminal) == (number, "0"), f"a child is in session {session}, with terminal {terminal}")
    files = re.findall(r"(\d+) -> (.*)", told)
    see(files and not any("/dev/pts" in name or name.endswith("/lock") for _, name in files), f"a child has the files {files}")
    return "no capability, environment, session, terminal or lock of root's"


def drain(terminal: int) -> None:
    """Reads a terminal until nobody writes it."""
    with contextlib.suppress(OSError):
        while select.select([terminal], [], [], SOON)[0] and os.read(terminal, 4096):
            pass
    os.close(terminal)


def refused_change(place: Place) -> str:
    """A change that is refused leaves the journal, the catalogue and no folder of copies."""
    place.begin()
    without = "".join(part for part in re.split(r"(?=^\[\[point\]\])", place.plant, flags=re.M) if '"air.damper"' not in part)
    ended = place.change(write(os.path.join(place.path, "etc", "less.toml"), without))
    see(ended.status == 15 and "adopt in-use air.damper" in ended.errors, f"status {ended.status}: {ended.errors}")
    see(not place.copies(), f"copies were left: {place.copies()}")
    see(text_of(place.catalogue) == place.plant and "leases 1" in place.check(place.catalogue), "something was changed")
    see_running(place)
    return "15, and no copies were left"


def change_of_catalogue(place: Place) -> str:
    """A change that is not refused: adopted, and the copies are the journal's user's, so that `cp -p` puts them back."""
    place.begin()
    before = text_of(place.journal)
    ended = place.change()
    see((ended.status, ended.output.splitlines()[0]) == (0, "adopted events 2 points 6 removed 0 added 0"), f"{ended}")
    see(text_of(place.catalogue) == text_of(place.new), "the new catalogue is not in place")
    see("leases 1" in place.check(place.catalogue), "the lease is gone")
    folder, = place.copies()
    copy = os.path.join(place.aside, folder, "journal")
    see((text_of(copy), os.stat(copy).st_uid) == (before, SERVICE), "the copy is not what was there, or not its user's")
    see(text_of(os.path.join(place.aside, folder, "plant.toml")) == place.plant, "the old catalogue was not copied aside")
    see(place.ran("stop bossd") and place.ran("start bossd"), "the unit was not stopped and started")
    return ended.output.splitlines()[0]


def what_lint_says(place: Place) -> str:
    """A key that the server passes over is said, also where the unit has no plan."""
    place.begin()
    write(place.new, place.plant.replace("default = 20000", "default = 20000\nmin-on = 5000", 1))
    ended = run([CHANGE, place.new], place.settings(BOSSCTL=os.path.join(PACKAGING, "bossctl"), PYTHONPATH=CLIENT))
    see(ended.status == 0 and "min-on" in ended.output + ended.errors, f"{ended}")
    return "said, and the catalogue taken"


# ---- bossd-serve

class Launched:
    """The program under the launcher, as the unit's user. Its lines are kept."""

    def __init__(self, place: Place, *before: str, port: int = 0, catalogue: str = "", program: str = "", rules: str = "", **more: str) -> None:
        self.port = port or free_port()
        words = [LAUNCHER, program or place.program, "serve", catalogue or place.catalogue, place.journal, f"127.0.0.1:{self.port}", "4", "1000000"]
        words += [rules] if rules else []
        self.lines: List[str] = []
        self.process = subprocess.Popen([*before, *words], stdout=subprocess.DEVNULL, stderr=subprocess.PIPE, stdin=subprocess.DEVNULL,
                                        bufsize=0, env={**os.environ, "TMPDIR": place.folder, **more})

    def until(self, text: str) -> str:
        """The next line with this text. Wrong where none comes."""
        assert self.process.stderr is not None
        while select.select([self.process.stderr], [], [], SOON)[0]:
            line = self.process.stderr.readline().decode()
            if not line:
                break
            self.lines.append(line)
            if text in line:
                return line
        raise Wrong(f"no line with {text!r}, but {self.lines}")

    def ask(self, *lines: bytes) -> List[bytes]:
        """The answers to these lines, over a connection of their own; those that come where it ends before."""
        answers: List[bytes] = []
        with contextlib.suppress(OSError), socket.create_connection(("127.0.0.1", self.port), timeout=SOON) as link:
            link.sendall(b"".join(lines))
            told = link.makefile("rb")
            answers.extend(answer for answer in (told.readline() for _ in lines) if answer)
        return answers

    def stop(self) -> None:
        if self.process.poll() is None:
            self.process.kill()
        self.process.wait()
        if self.process.stderr is not None:
            self.process.stderr.close()


@contextlib.contextmanager
def launched(place: Place, *before: str, port: int = 0, catalogue: str = "", program: str = "", rules: str = "", **more: str) -> Iterator[Launched]:
    made = Launched(place, *before, port=port, catalogue=catalogue, program=program, rules=rules, **more)
    try:
        yield made
    finally:
        made.stop()


def serve_once(place: Place) -> str:
    """Has the launcher serve the journal, in which the damper is held, and gives the name under which it kept the catalogue."""
    with launched(place, *as_service()) as server:
        server.until("bossd: listening at")
        see(b'"ok":"accepted"' in server.ask(ATTACH, HOLD)[-1], "the damper could not be held")
        see(eventually(lambda: bool(kept_in(place.folder)), SOON), "no catalogue was kept")
        # Nobody is attached, so a lease ends; one that the journal has when the program is killed goes on.
    found = kept_in(place.folder)
    see(len(found) == 1, f"kept: {found}")
    place.script(place.catalogue, ATTACH + HOLD)
    return os.path.join(place.folder, found[0])


def kept_in(folder: str) -> List[str]:
    return [name for name in os.listdir(folder) if re.fullmatch(r"journal\.catalogue-[0-9a-f]{16}", name)]


def kept_catalogue(place: Place) -> str:
    """The catalogue is edited in its place: a line names the one that was served, and the change is made afterwards."""
    kept = serve_once(place)
    see(text_of(kept) == place.plant, "what was kept is not what was served")
    shutil.copyfile(place.new, place.catalogue)
    with launched(place, *as_service()) as server:
        see(kept in server.until("bossd-serve: the catalogue that"), "the line does not name it")
        see(server.process.wait(SOON) == 4, f"the edited catalogue was served, or ended with {server.process.returncode}")
    ended = place.change(place.catalogue)
    see(ended.status == 0 and re.match(r"adopted events \d+ points 6 removed 0 added 0\n", ended.output), f"{ended}")
    see("leases 1" in place.check(place.new), "the lease is gone")
    with launched(place, *as_service()) as server:
        server.until("bossd: listening at")
    return "named, and adopted after the fact"


def kept_catalogue_is_back(place: Place) -> str:
    """The same, with a change that is refused: the catalogue that the journal is kept under is in place again, and the edited one aside."""
    serve_once(place)
    without = "".join(part for part in re.split(r"(?=^\[\[point\]\])", place.plant, flags=re.M) if '"air.damper"' not in part)
    write(place.catalogue, without)
    ended = place.change(place.catalogue)
    see(ended.status == 15 and "adopt in-use air.damper" in ended.errors, f"status {ended.status}: {ended.errors}")
    see(text_of(place.catalogue) == place.plant, "the catalogue of the journal is not in place")
    folder, = place.copies()
    see(text_of(os.path.join(place.aside, folder, "plant.toml")) == without, "the edited catalogue is gone")
    see_running(place)
    return "15; the building goes on under the catalogue that was served"


def kept_catalogue_is_gone(place: Place) -> str:
    """Nothing was kept, or somebody put something else under that name."""
    place.begin()
    shutil.copyfile(place.new, place.catalogue)
    ended = place.change(place.catalogue)
    see(ended.status == 4 and "is not kept as" in ended.errors, f"nothing kept: status {ended.status}: {ended.errors}")
    name = re.search(r"journal\.catalogue-[0-9a-f]{16}", ended.errors)
    kept = os.path.join(place.folder, name.group() if name else "none")
    os.symlink(place.victim, kept)
    see(place.change(place.catalogue).status == 4, "a link was taken for the kept catalogue")
    os.remove(kept)
    write(kept, place.plant.replace("default = 20000", "default = 22000", 1), 0o640, SERVICE)
    ended = place.change(place.catalogue)
    see(ended.status == 4 and "neither under" in ended.errors, f"another catalogue: status {ended.status}: {ended.errors}")
    see(not place.ran("stop bossd"), "the unit was stopped for it")
    return "each refused with 4 while the unit runs"


def address_of_a_network(place: Place) -> str:
    """The launcher says so where the address is not this machine's alone. A stand-in takes the program's place: nothing listens."""
    stand_in = write(os.path.join(place.path, "stand-in"), "#!/bin/sh\nexit 0\n", 0o755)
    for address, warned in [("127.0.0.1:7000", False), ("[::1]:7000", False), ("0.0.0.0:7000", True), ("192.0.2.1:7000", True), ("[::]:7000", True)]:
        ended = run([LAUNCHER, stand_in, "serve", place.catalogue, "-", address, "1", "1"], os.environ)
        see(("may command the building" in ended.errors) == warned, f"{address}: {ended.errors}")
    return "said of three, and of no address of this machine alone"


def mistaken_rules(place: Place) -> str:
    """A misspelt key of a rule would let its process write at every level: such rules are refused, and bossctl names the key."""
    rules = write(os.path.join(place.path, "etc", "rules.toml"), '[[rule]]\nprocess = "comfort"\npoint = "*"\nhigest = 8\n')
    with launched(place, *as_service(), rules=rules) as server:
        server.until("rules")
        see(server.process.wait(SOON) == 16, f"status {server.process.returncode}")
    settings = {**os.environ, "PYTHONPATH": CLIENT}
    named = run([os.path.join(PACKAGING, "bossctl"), "lint", place.catalogue, rules], settings)
    see(named.status == 1 and "higest" in named.output + named.errors, f"{named}")
    return "16, and the key is named by bossctl lint"


# Runs the words that follow with a folder that is a disk of 8 MB, which only they see; and beside the process of such a number.
ON_SMALL_DISK = ["unshare", "--mount", "sh", "-c", f'mount -t tmpfs -o size=8m,uid={SERVICE},gid={SERVICE},mode=755 tmpfs "$0" && exec "$@"']


def full_disk(place: Place) -> str:
    """A disk that somebody else filled: the reserve is given up, and the next start goes on in its room, and makes no new one."""
    holder = subprocess.Popen([*ON_SMALL_DISK, place.folder, "sh", "-c", "echo; exec cat"], stdin=subprocess.PIPE, stdout=subprocess.PIPE)
    assert holder.stdout is not None
    try:
        see(holder.stdout.readline() == b"\n", "no small disk could be made")
        beside = ["nsenter", "--mount", "--target", str(holder.pid)]
        with launched(place, *beside, *as_service(), TMPDIR=tempfile.gettempdir(), RESERVE="1") as server:
            server.until("bossd: listening at")
            seen = f"/proc/{holder.pid}/root{place.folder}"
            see(eventually(lambda: bool(kept_in(seen)), SOON), "no catalogue was kept")
            fill(place, beside)
            kept = submitted(server)
            server.until("MiB to go on with: make room")
            server.until("a disk failed")
            see(server.process.wait(SOON) == -signal.SIGKILL, "the program was not ended")
        with launched(place, *beside, *as_service(), TMPDIR=tempfile.gettempdir(), RESERVE="1") as server:
            server.until("bossd: listening at")
            see(any("no reserve is kept" in line for line in server.lines), f"a reserve was made on a full disk: {server.lines}")
            answers = server.ask(ATTACH, HOLD, f'{{"op":"status","txn":{kept}}}\n'.encode())
            see(b'"ok":"accepted"' in answers[1] and b'"ok":"status"' in answers[2], f"after the reserve was given up: {answers}")
    finally:
        holder.communicate()
    return f"{kept} submits until it was full; after a start in the reserve's room the next one was accepted"


def fill(place: Place, beside: List[str]) -> None:
    """Takes what the disk has left, as far as whole blocks go."""
    subprocess.run([*beside, "sh", "-c", f"cat /dev/zero >{place.folder}/filler"], stderr=subprocess.DEVNULL, check=False)
    # Some room for the journal, less than a reserve.
    subprocess.run([*beside, "truncate", "--size=-65536", f"{place.folder}/filler"], check=True)


def submitted(server: Launched) -> int:
    """How many submits are acknowledged until one is not."""
    count = 0
    for number in range(200):
        # A name of its own, since the connection before may not be over yet.
        attach = ATTACH.replace(b"comfort", b"filler-%d" % number)
        accepted = sum(b'"ok":"accepted"' in answer for answer in server.ask(attach, *[HOLD] * 100))
        count += accepted
        if accepted < 100:
            return count
    raise Wrong("the disk never filled")


def low_port(place: Place) -> str:
    """With its one capability the unit's user has a port below 1024, which another process of that number may not take, in a network of its
    own with one loopback."""
    own = subprocess.run(["unshare", "--net", sys.executable, os.path.join(TOP, "tools", "attack"), "--in-own-network", place.path],
                         capture_output=True, text=True, timeout=3 * SOON)
    see(own.returncode == 0, own.stderr)
    return own.stdout.strip()


def low_port_inside(place: Place) -> str:
    raise_loopback()
    capable = ["setpriv", f"--reuid={SERVICE}", f"--regid={SERVICE}", "--clear-groups", "--inh-caps=-all,+net_bind_service",
               "--ambient-caps=-all,+net_bind_service", "--bounding-set=-all,+net_bind_service", "--no-new-privs"]
    with launched(place, *capable, port=700) as server:
        server.until("bossd: listening at 127.0.0.1:700")
        see(b'"ok":"attached"' in server.ask(ATTACH)[0], "it does not answer")
    take = "import socket,sys\ns=socket.socket(); s.setsockopt(socket.SOL_SOCKET,socket.SO_REUSEADDR,1)\ns.bind(('127.0.0.1',int(sys.argv[1])))"
    taken = {port: subprocess.run(as_service(sys.executable, "-c", take, port), capture_output=True, check=False).returncode == 0
             for port in ("700", "7000")}
    see(taken == {"700": False, "7000": True}, f"what another program could take: {taken}")
    with launched(place, *capable, port=700) as server:
        server.until("bossd: listening at 127.0.0.1:700")
    return "127.0.0.1:700 was served, could not be taken while it was free, and was served again"


def raise_loopback() -> None:
    """Brings up the loopback of this network: reads its flags, and sets IFF_UP."""
    with socket.socket(socket.AF_INET, socket.SOCK_DGRAM) as link:
        asked = struct.pack("16sh14x", b"lo", 0)
        flags = struct.unpack("16sh14x", fcntl.ioctl(link, 0x8913, asked))[1]
        fcntl.ioctl(link, 0x8914, struct.pack("16sh14x", b"lo", flags | 1))


# ---- bossd-feed

def feed_alone(place: Place) -> str:
    """Whoever has the standby's key may ask as often as he likes: one copy is there at a time."""
    place.begin()
    copies = os.path.join(place.path, "copies")
    os.mkdir(copies)
    settings = {**os.environ, "BOSSD": place.program, "TMPDIR": copies, "WAIT": "1"}
    words = [FEED, place.catalogue, place.journal, "0"]
    folder = os.open(place.folder, os.O_RDONLY)
    fcntl.flock(folder, fcntl.LOCK_EX)
    ended = run(words, settings)
    see((ended.status, ended.output) == (5, "") and "another one feeds" in ended.errors, f"a second one: {ended}")
    see(not os.listdir(copies), "a second one left a copy")
    os.close(folder)
    ended = run(words, settings)
    see((ended.status, ended.output.count("event ")) == (0, 2), f"alone: {ended}")
    see(not os.listdir(copies), "it left a copy")
    return "the second one ended with 5 and without a copy"


def feed_by_ssh(place: Place) -> str:
    """The line of OPERATIONS.md for authorized_keys: what stands for names of files in the client's words is not looked up."""
    found = re.search(r'restrict,command="([^"]*)"', text_of(os.path.join(TOP, "docs", "OPERATIONS.md")))
    see(found, "OPERATIONS.md has no such line")
    command = found.group(1) if found else ""
    command = command.replace("bossd-feed /etc/bossd/plant.toml /var/lib/bossd/journal", f"{FEED} {place.catalogue} {place.journal}")
    place.begin()
    for asked, status in [("0", 0), ("0 /etc/passw?", 3), ("0 $(id)", 3), ("0 ; id", 2), ("/etc/passw? 0", 2)]:
        ended = run(["sh", "-c", command], {**os.environ, "BOSSD": place.program, "SSH_ORIGINAL_COMMAND": asked})
        see(ended.status == status, f"{asked!r}: {ended}")
        see("passwd" not in ended.errors and "uid=" not in ended.output + ended.errors, f"{asked!r} was looked up or run: {ended}")
    return "no name was looked up, no command was run"


# ---- the program's connections, its clock and its files

# How long a client may hold a worker by what it does not do, in seconds, and how much later that may show. A loaded machine takes its time.
PATIENCE, SLACK = 60, 30
ARRAY = b'{"op":"array","point":"air.damper"}\n'


class Served(Launched):
    """The program alone, over memory, with so many workers. What stands in `before` runs it; `files` are the rules and the plan."""

    def __init__(self, place: Place, workers: int, *before: str, journal: str = "-", files: Sequence[str] = (), **more: str) -> None:
        self.port = free_port()
        words = [place.program, "serve", place.catalogue, journal, f"127.0.0.1:{self.port}", str(workers), "1000000", *files]
        self.lines: List[str] = []
        self.process = subprocess.Popen([*before, *words], stdout=subprocess.DEVNULL, stderr=subprocess.PIPE, stdin=subprocess.DEVNULL,
                                        bufsize=0, env={**os.environ, **more})
        self.until("bossd: listening at")

    def link(self) -> socket.socket:
        return socket.create_connection(("127.0.0.1", self.port), timeout=SOON)


@contextlib.contextmanager
def served(place: Place, workers: int, *before: str, journal: str = "-", files: Sequence[str] = (), **more: str) -> Iterator[Served]:
    made = Served(place, workers, *before, journal=journal, files=files, **more)
    try:
        yield made
    finally:
        made.stop()


def say(link: socket.socket, line: bytes) -> bytes:
    """The answer to this line; none where the connection has ended."""
    with contextlib.suppress(OSError):
        link.sendall(line)
        answer = b""
        while not answer.endswith(b"\n"):
            more = link.recv(65536)
            if not more:
                break
            answer += more
        return answer
    return b""


def is_over(link: socket.socket) -> bool:
    """Whether the program has ended this connection, on which nothing is to come."""
    link.setblocking(False)
    try:
        return link.recv(65536) == b""
    except BlockingIOError:
        return False
    except OSError:
        return True


def free_again(server: Served, since: float) -> float:
    """After how many seconds one more client is served. Wrong where it is not in time."""
    with contextlib.closing(server.link()) as link:
        link.settimeout(PATIENCE + SLACK)
        see(b'"ok":"array"' in say(link, ARRAY), f"nobody else is served {PATIENCE + SLACK} s later")
    return time.monotonic() - since


def is_still(server: Served) -> bool:
    """Whether the program does next to nothing for two seconds."""
    def ticks() -> int:
        return sum(map(int, text_of(f"/proc/{server.process.pid}/stat").rsplit(")", 1)[1].split()[11:13]))

    before = ticks()
    time.sleep(2)
    return ticks() - before < 20


def never_reads(place: Place) -> str:
    """A client for each worker that asks and never reads: each holds its worker until it took no byte for a minute."""
    with served(place, 2) as server, contextlib.ExitStack() as stack:
        for _ in range(2):
            link = stack.enter_context(socket.socket())
            link.setsockopt(socket.SOL_SOCKET, socket.SO_RCVBUF, 4096)
            link.connect(("127.0.0.1", server.port))
            link.setblocking(False)
            # More than the system keeps of answers that nobody reads.
            while select.select([], [link], [], 3)[1]:
                link.send(ARRAY * 100)
        see(eventually(lambda: is_still(server), 10 * SOON), "the program does not come to wait for who reads nothing")
        after = free_again(server, time.monotonic())
    return f"one more was served after {after:.0f} s"


def says_nothing(place: Place) -> str:
    """A client for each worker that says nothing; the system is to ask whether it is there meanwhile."""
    with served(place, 2) as server, contextlib.ExitStack() as stack:
        start = time.monotonic()
        links = [stack.enter_context(server.link()) for _ in range(2)]
        after = free_again(server, start)
        see(after > PATIENCE - 1, f"one more was served after {after:.0f} s already")
        see(eventually(lambda: all(is_over(link) for link in links), SLACK), "a connection on which nothing was said stays")
    return f"one more was served after {after:.0f} s"


def half_a_line(place: Place) -> str:
    """A client for each worker but one that leaves half a line, and sends a byte now and then; beside it one that has said a line and is
    still: he holds what he holds."""
    with served(place, 3) as server, contextlib.ExitStack() as stack:
        still, *links = [stack.enter_context(server.link()) for _ in range(3)]
        see(b'"ok":"attached"' in say(still, ATTACH) and b'"ok":"accepted"' in say(still, HOLD), "it does not answer")
        start = time.monotonic()
        for link in links:
            see(b'"ok":"array"' in say(link, ARRAY), "it does not answer")
            link.sendall(b'{"op":')
        while time.monotonic() - start < PATIENCE + SLACK and not all(is_over(link) for link in links):
            time.sleep(5)
            for link in links:
                with contextlib.suppress(OSError):
                    link.send(b" ")
        after = free_again(server, start)
        see(after > PATIENCE - 1, f"one more was served after {after:.0f} s already")
        see(b'"ok":"array"' in say(still, ARRAY), "who said a line and was still then has lost its connection")
    return f"one more was served after {after:.0f} s, and who was still between two lines is there"


def short_of_descriptors(place: Place) -> str:
    """More connections than descriptors: the workers that find none are there again once there are."""
    with served(place, 8, "prlimit", "--nofile=9:4096") as server, contextlib.ExitStack() as stack:
        links = [stack.enter_context(server.link()) for _ in range(8)]
        server.until("a connection could not be accepted")
        for link in links:
            link.close()
        time.sleep(3)
        subprocess.run(["prlimit", "--pid", str(server.process.pid), "--nofile=4096:4096"], check=True)
        links = [stack.enter_context(server.link()) for _ in range(8)]
        for link in links:
            link.settimeout(SLACK)
        see(all(b'"ok":"array"' in say(link, ARRAY) for link in links), "not all workers are there again")
        server.until("connections are accepted again")
    return "all eight workers serve again"


def new_journal(place: Place) -> str:
    """A journal that is made is nobody else's to read, whatever the umask, and not through a link that leads nowhere."""
    with served(place, 2, "sh", "-c", 'umask 0; exec "$@"', "-", journal=place.journal) as server:
        see(server.ask(ATTACH), "it does not answer")
        mode = os.stat(place.journal).st_mode & 0o777
        see(mode == 0o640, f"the journal has mode {mode:o}")
    os.symlink(os.path.join(place.path, "nowhere"), place.journal + "2")
    ended = run([place.program, "script", place.catalogue, place.journal + "2"], os.environ, ATTACH)
    see(ended.status == 5 and not os.path.exists(os.path.join(place.path, "nowhere")), f"a link was followed: {ended}")
    return "mode 640; a link to nothing is refused with 5"


def other_names_of_a_journal(place: Place) -> str:
    """A second program on the same journal by a link and by another name of its files: the lock is the file's, whatever its name is."""
    with served(place, 2, journal=place.journal) as server:
        see(server.ask(ATTACH), "it does not answer")
        os.symlink(place.journal, place.journal + "-link")
        for end in ("", ".b"):
            if os.path.exists(place.journal + end):
                os.link(place.journal + end, place.journal + "-other" + end)
        for end in ("-link", "-other"):
            ended = run([place.program, "script", place.catalogue, place.journal + end], os.environ, ATTACH)
            see(ended.status == 5 and f"process {server.process.pid} (bossd) writes it" in ended.errors, f"{end}: {ended}")
    return "both ended with 5, and named the one that has it"


# ---- names, which are whoever's takes them

def say_as(server: Served, name: bytes, *lines: bytes) -> List[bytes]:
    """What a process of this name is answered, over a connection that ends then."""
    return server.ask(ATTACH.replace(b"comfort", name), *lines)


def all_names(place: Place) -> str:
    """Programs that come and go with a name each. Under rules that name none of them nothing is spent, and the name that the rules have
    attaches then. Without rules there is no new name after 256, and those that are known go on."""
    rules = write(os.path.join(place.path, "etc", "rules.toml"), '[[rule]]\nprocess = "comfort"\npoint = "*"\n')
    with served(place, 4, journal=place.journal, files=[rules]) as server:
        for number in range(257):
            answer, = say_as(server, b"visitor-%d" % number)
            see(answer == b'{"error":"denied","index":0,"rule":0}\n', f"visitor {number}, under rules: {answer!r}")
    # Nothing of them is in the journal, and the name is new.
    with served(place, 4, journal=place.journal, files=[rules]) as server:
        answer, = say_as(server, b"comfort")
        see(answer == b'{"ok":"attached","process":"comfort","next":1}\n', f"a name of the rules, behind 257 others: {answer!r}")
    with served(place, 4, journal=place.journal) as server:
        for number in range(255):
            answer, = say_as(server, b"visitor-%d" % number)
            see(b'"ok":"attached"' in answer, f"visitor {number}, without rules: {answer!r}")
        answer, = say_as(server, b"smoke")
        see(answer == b'{"error":"too-many-processes"}\n', f"the 257th name: {answer!r}")
        see(eventually(lambda: b'"ok":"attached"' in say_as(server, b"visitor-0")[0], SLACK), "one that is known does not attach")
    return "under rules 257 names that they do not have spend nothing; without rules the 257th is refused"


def numbers_used_up(place: Place) -> str:
    """A stranger takes a free name, and has its greatest number accepted: no numbered request of that name is new from then on. Those without a number are."""
    last = 2 ** 62 - 1
    with served(place, 4) as server:
        answer = say_as(server, b"comfort", HOLD.replace(b"{", b'{"seq":%d,' % last, 1))[-1]
        see(b'"ok":"accepted"' in answer, f"the greatest number: {answer!r}")
        see(eventually(lambda: b"attached" in say_as(server, b"comfort")[0], SLACK), "the name is not free again")
        with contextlib.closing(server.link()) as link:
            see(eventually(lambda: b'"ok":"attached"' in say(link, ATTACH), SLACK), "the name is not free again")
            answer = say(link, HOLD.replace(b"{", b'{"seq":1,', 1))
            see(answer == b'{"error":"stale","kept":%d}\n' % last, f"a numbered request: {answer!r}")
            see(b'"ok":"accepted"' in say(link, HOLD), "a request without a number is not made")
    return "numbered requests of that name are stale from then on; open to whoever connects first"


def ended_by_another(place: Place) -> str:
    """After a restart a lease stands, and nobody is attached: whoever comes first under its name and hangs up ends it."""
    with served(place, 4, journal=place.journal) as server, contextlib.closing(server.link()) as link:
        see(b'"ok":"attached"' in say(link, ATTACH) and b'"ok":"accepted"' in say(link, HOLD), "it does not answer")
        # The server ends while its client is there.
        server.stop()
    with served(place, 4, journal=place.journal) as server, contextlib.closing(server.link()) as link:
        held = say(link, ARRAY)
        see(b'"value":60000' in held, f"before: {held!r}")
        see(b'"ok":"attached"' in say_as(server, b"comfort")[0], "a stranger was not taken for it")
        see(eventually(lambda: b'"value":60000' not in say(link, ARRAY), SLACK), "the lease stands")
    return "ended, as that of a process that is lost; open to whoever connects first"


# Level 1 is that of `safety` alone, and the operators' begins at 8.
LEVELS = '[[rule]]\nprocess = "safety"\npoint = "*"\n[[rule]]\nprocess = "operator"\npoint = "*"\nhighest = 8\n'
DAY = 86_400_000
# The damper at level 1 for a week, and eight days behind it.
STAY = json.dumps({"op": "submit", "writes": [{"point": "air.damper", "value": 60_000, "priority": 1, "lease": 7 * DAY,
                                               "revert": [[70_000 + step, DAY] for step in range(8)]}]}).encode() + b"\n"
READ = b'{"op":"read","point":"air.damper"}\n'


def bossctl(server: Served, *words: str) -> Ended:
    return run([os.path.join(PACKAGING, "bossctl"), *words, "--server", f"127.0.0.1:{server.port}"], {**os.environ, "PYTHONPATH": CLIENT})


def see_free(server: Served) -> None:
    """The damper is at its default, and nothing stands or is to come in any of its slots."""
    slots, reading = server.ask(ARRAY, READ)
    see(json.loads(slots)["slots"] == 16 * [None] and b'"from":"default"' in reading, f"the damper: {reading!r}, {slots!r}")


def stays(place: Place) -> str:
    """Under rules that let nobody else write at level 1 a stranger takes the name that may, holds the damper there for a week with eight days of
    reversions, and leaves, or the server is started again: no other name ends it. `bossctl evict` does, at once, and nothing comes behind it."""
    files = [write(os.path.join(place.path, "etc", "rules.toml"), LEVELS)]
    taken = [ATTACH.replace(b"comfort", b"safety"), STAY]
    for basis, leaves in ((b'"from":"pending"', True), (b'"from":"lease"', False)):
        with served(place, 4, journal=place.journal, files=files) as server, contextlib.closing(server.link()) as link:
            see(b'"ok":"accepted"' in [say(link, line) for line in taken][-1], "the damper was not taken")
            told = bossctl(server, "evict", "safety")
            see(told.status == 1 and "refused: taken" in told.errors, f"while the stranger is there: {told}")
            if leaves:
                link.close()
                see(eventually(lambda: b'"from":"pending"' in server.ask(READ)[0], SLACK), "it does not revert")
            server.stop()
        with served(place, 4, journal=place.journal, files=files) as server:
            see(basis in server.ask(READ)[0], f"after a restart: {server.ask(READ)}")
            last = int(json.loads(server.ask(READ)[0])["txn"])
            answers = say_as(server, b"operator", STAY, b'{"op":"cancel","txn":%d}\n' % last)
            see(b'"denied"' in answers[1] and b'"not-yours"' in answers[2], f"the operator: {answers}")
            told = bossctl(server, "evict", "safety")
            see(told.status == 0 and "it holds nothing any more" in told.output, f"evict: {told}")
            see_free(server)
            see(b'"ok":"accepted"' in say_as(server, b"operator", STAY.replace(b'"priority": 1', b'"priority": 8'))[-1], "the operator is refused")
            told = bossctl(server, "evict", "operator")
            see(told.status == 0, f"evict of the operator: {told}")
            see_free(server)
    return "ended by bossctl evict, a lease and a reversion, and nothing comes behind it; nobody else's command ends it"


# ---- a device that executes a write late

class Gateway:
    """A Modbus TCP host that executes the first write of 90 only after so many seconds, however many came meanwhile, and answers nothing to it."""

    def __init__(self, seconds: float) -> None:
        self.seconds, self.has, self.late = seconds, 0, False
        self.host = modbus.Host(self.behave)

    def behave(self, connection: socket.socket, frame: bytes) -> bool:
        function, value = frame[7], int.from_bytes(frame[10:12], "big")
        if function == 3:
            connection.sendall(frame[:4] + b"\0\5" + frame[6:8] + b"\2" + self.has.to_bytes(2, "big"))
            return True
        if value == 90 and not self.late:
            self.late = True
            threading.Timer(self.seconds, setattr, (self, "has", value)).start()
            return True
        self.has = value
        connection.sendall(frame)
        return True


def late_write(place: Place) -> str:
    """A gateway that was slow with 90 executes it behind 10, which it took at once. Where the plan says `check` the device is found, and written once more."""
    came = {}
    # Under the policy keep a fault of the first write ends nothing.
    hold = HOLD.replace(b'"writes"', b'"policy":"keep","writes"')
    place.catalogue = write(os.path.join(place.path, "etc", "damper.toml"), 'drivers = ["air"]\n[[point]]\nname = "air.damper"\ndriver = "air"\n'
                            'kind = "analog"\nmin = 0\nmax = 100000\ndefault = 20000\n')
    for check in (0, 1000):
        gateway = Gateway(12.0)
        looks = f"check = {check}\n" if check else ""
        plan = write(os.path.join(place.path, "etc", "plan.toml"), f'[[driver]]\nname = "air"\nhost = "{gateway.host.address}"\nwait = 1000\n{looks}'
                     '[[place]]\npoint = "air.damper"\nunit = 1\nregister = 0\nper = 1000\n')
        with served(place, 4, files=["-", plan]) as server, contextlib.closing(server.link()) as link:
            see(eventually(lambda: gateway.has == 20, SLACK) and b"attached" in say(link, ATTACH), "the device was not written its default")
            say(link, hold.replace(b":60000", b":90000"))
            see(eventually(lambda: gateway.late, SLACK), "the device was not written 90")
            say(link, hold.replace(b":60000", b":10000"))
            see(eventually(lambda: gateway.has == 10, 11.0) and eventually(lambda: gateway.has == 90, SLACK), "the gateway was not late")
            came[check] = eventually(lambda: gateway.has == 10, 10.0)
        gateway.host.stop()
    see(came[1000], "with check = 1000 the device was left with the older value")
    return f"with `check` the device has the newer value again; without it it {'has too' if came[0] else 'has not, as OPERATIONS says'}"


# ---- the units

def exposed_units(place: Place) -> str:
    """How exposed systemd finds the three units that hold a plant, of 10, by their files alone."""
    told = {}
    for unit in ("bossd", "bossd-console", "bossd-follow"):
        ended = run(["systemd-analyze", "security", "--offline=yes", os.path.join(PACKAGING, f"{unit}.service")], os.environ)
        found = re.search(r"Overall exposure level for \S+: ([0-9.]+)", ended.output)
        see(found, f"{unit}: {ended}")
        told[unit] = float(found.group(1)) if found else 10.0
    see(max(told.values()) <= 1.4, f"{told}")
    for unit in told:
        text = text_of(os.path.join(PACKAGING, f"{unit}.service"))
        for key in ("LimitCORE=0", "MemoryMax=", "TasksMax=", "OOMScoreAdjust=", "IPAddressDeny=any", "SystemCallFilter=~@privileged @resources"):
            see(re.search(f"^{re.escape(key)}", text, re.M), f"{unit} has no {key}")
    return ", ".join(f"{unit} {level}" for unit, level in told.items())


def set_clock(place: Place) -> str:
    """The program's wall clock is set: to 2036 for 1.5 s, back by an hour for good. Leases are as long as they were taken for, and the journal's
    moment is as it was. At rest the program looks at it once a second. This machine's clock is left alone: a library in front of the C library shows another one."""
    clocks = Clocks(place.path)
    with served(place, 4, **clocks.environment) as server, contextlib.ExitStack() as stack:
        link, watch = (stack.enter_context(server.link()) for _ in range(2))
        say(link, ATTACH)
        watch.sendall(b'{"op":"watch","process":"comfort"}\n')
        notices = watch.makefile("rb")

        def lasts(seconds: int) -> float:
            """By how much a lease of so many seconds is longer or shorter."""
            taken = time.monotonic()
            answer = say(link, HOLD.replace(b"3600000", b"%d" % (1000 * seconds)))
            see(b'"ok":"accepted"' in answer, f"{answer!r}")
            while b'"kind":"ended"' not in (notice := notices.readline()):
                see(notice, "the watch has ended")
            return abs(time.monotonic() - taken - seconds)

        offs = [lasts(3)]
        setters = [threading.Timer(after, clocks.put, (ahead,)) for after, ahead in ((1.0, 10 * YEAR), (2.5, 0.0))]
        for setter in setters:
            setter.start()
        offs.append(lasts(4))
        for setter in setters:
            setter.join()
        server.until("ms ahead of the moments")
        server.until("the clock is within 10 s")
        clocks.put(-HOUR)
        offs.append(lasts(4))
        server.until("ms behind the moments")
        see(max(offs) < 1, f"leases of some seconds were off by {offs}")
    return "leases of 3, 4 and 4 s were off by " + ", ".join(f"{off:.2f}" for off in offs) + " s"


# Each is tried in a place of its own. To add one, write a function as these and name it here.
Case = Callable[[Place], str]
AS_ROOT: List[Case] = [
    change_of_catalogue, refused_change, write_through_link, read_through_link, pipe_as_journal, journal_of_others, catalogue_of_others,
    what_a_child_has, what_lint_says, kept_catalogue, kept_catalogue_is_back, kept_catalogue_is_gone, full_disk, low_port,
]
AS_ANYBODY: List[Case] = [
    address_of_a_network, mistaken_rules, feed_alone, feed_by_ssh, never_reads, says_nothing, half_a_line, short_of_descriptors, new_journal,
    other_names_of_a_journal, all_names, numbers_used_up, ended_by_another, stays, late_write, set_clock, exposed_units,
]


def tried(case: Case) -> Tuple[bool, str]:
    """Whether a case is as it has to be, and what to say of it."""
    with tempfile.TemporaryDirectory() as scratch:
        try:
            return True, case(Place(scratch))
        except (Wrong, subprocess.SubprocessError, OSError, AssertionError) as wrong:
            return False, f"WRONG: {wrong}"


def why_left_out(case: Case, with_keys: Sequence[Case], takes_keys: Callable[[Place], bool]) -> str:
    """Why a case is not tried here; empty where it is."""
    if case in AS_ROOT and os.geteuid() != 0:
        return "it wants root"
    if case in with_keys:
        with tempfile.TemporaryDirectory() as scratch:
            return "" if takes_keys(Place(scratch)) else "the program takes no file of keys"
    return ""


def main() -> None:
    heed_help(__doc__)
    need_program()
    if sys.argv[1:2] == ["--in-own-network"]:
        print(low_port_inside(Place(tempfile.mkdtemp(dir=sys.argv[2]))))
        return
    # They stand on this module.
    from outside import attack_keys
    known = {case.__name__: case for case in [*AS_ROOT, *AS_ANYBODY, *attack_keys.EVER, *attack_keys.WITH_KEYS]}
    names = sys.argv[1:] or list(known)
    if not set(names) <= set(known):
        sys.exit("attack: the cases are " + " ".join(known))
    failed = 0
    for name in names:
        why = why_left_out(known[name], attack_keys.WITH_KEYS, attack_keys.takes_keys)
        holds, told = (True, f"left out, since {why}") if why else tried(known[name])
        print(f"{name}: {told}", flush=True)
        failed += not holds
    sys.exit(f"attack: {failed} of {len(names)} are not as they have to be" if failed else 0)


if __name__ == "__main__":
    main()
