"""The cases of tools/attack against keys: whoever reaches the port and has none, or has another's, on loopback. tools/attack runs them."""

import contextlib
import json
import os
import random
import signal
import socket
import string
import subprocess
import sys
import threading
import time
from typing import Iterator, List, Mapping, NamedTuple, Optional, Sequence

from outside.attack import (
    ARRAY, ATTACH, HOLD, PACKAGING, SLACK, SOON, STAY, Case, Ended, Place, Served, bossctl, is_over, run, say, served, text_of, write,
)
from outside.cases import see
from outside.keys import digest, key_of
from outside.program import eventually, free_port

WRONG = b'{"error":"wrong-key"}\n'
KEYS = {"comfort": key_of("comfort"), "page": key_of("page"), "night-*": key_of("night")}
# How many wrong keys a second are shown, for how many seconds, by how many programs; and how many ask meanwhile.
RATE, LONG, STRANGERS, ASKERS = 10_000, 10.0, 3, 4
# How much slower the hundredth of answers that are the slowest may be meanwhile. What it is on a quiet machine docs/MEASURED.md has.
SLOWER = 20.0


def file_of(place: Place, keys: Mapping[str, str] = KEYS, reserve: int = 0) -> str:
    """A file of keys for these processes, which keeps so many workers."""
    kept = f"reserve = {reserve}\n" if reserve else ""
    tables = (f'[[key]]\nprocess = "{process}"\nsha256 = "{digest(key)}"\n' for process, key in keys.items())
    return write(os.path.join(place.path, "etc", "keys.toml"), kept + "".join(tables))


@contextlib.contextmanager
def with_keys(place: Place, workers: int, journal: str = "-", reserve: int = 0) -> Iterator[Served]:
    with served(place, workers, journal=journal, files=["-", "-", file_of(place, reserve=reserve)]) as server:
        yield server


def shown(line: bytes, key: str, **more: object) -> bytes:
    """The same line with this key."""
    return json.dumps({**json.loads(line), **more, "key": key}).encode() + b"\n"


READ = b'{"op":"read","point":"air.damper","as":"page"}\n'


def alone(server: Served, line: bytes) -> List[bytes]:
    """What a connection of its own is answered to this line and to one more, up to its end."""
    with contextlib.closing(server.link()) as link:
        first = say(link, line)
        return [answer for answer in (first, say(link, ARRAY)) if answer]


def guessed(place: Place) -> str:
    """Guesses near a key and far from it, and what its file tells: the digest, and the key's own beginnings. Each is told the same, and over."""
    chance = random.Random(1)
    key = KEYS["comfort"]
    guesses: List[object] = [key[:length] for length in range(len(key))]
    guesses += [key + "x", key * 2, " " + key, key + "\n", key + "\0", key.upper(), key.swapcase(), key.encode().hex(), digest(key), digest(key)[:43],
                digest(digest(key)), KEYS["page"], None, True, 0, -1, 1e3, [], [key], {}, {"key": key}, "*", "comfort", "' or '1'='1", "\u212a" + key[1:]]
    guesses += [key[:place] + other + key[place + 1:] for place in range(len(key)) for other in ("A" if key[place] != "A" else "B",)]
    guesses += ["".join(chance.choices(string.ascii_letters + string.digits + "_-", k=chance.choice([31, 32, 47, 128, 129, 4_096]))) for _ in range(400)]
    with with_keys(place, 4) as server, contextlib.closing(server.link()) as holder:
        see(b'"ok":"attached"' in say(holder, shown(ATTACH, key)) and b'"ok":"accepted"' in say(holder, HOLD), "the right key is not taken")
        for guess in guesses:
            answers = alone(server, json.dumps({"op": "read", "point": "air.damper", "as": "comfort", "key": guess}).encode() + b"\n")
            see(answers == [WRONG], f"{str(guess)[:60]!r}: {answers}")
        # Who is there, and who is not, is told to nobody: one text for all, as to who shows nothing.
        for name in (b"comfort", b"page", b"nobody", b"night-1"):
            see(alone(server, ATTACH.replace(b"comfort", name)) == [WRONG], f"{name!r} without a key")
        see(b'"value":60000' in say(holder, ARRAY), "what is held is held no longer")
    return f"{len(guesses)} guesses, each answered wrong-key, and the connection over; what was held is held"


def in_the_wrong_place(place: Place) -> str:
    """A right key in the second line, in another field, in an array before, in a line that is no object, and in the last of sixteen at once."""
    right = shown(ATTACH, KEYS["comfort"])
    with with_keys(place, 4) as server:
        for what, lines, wanted in [
            ("in the second line", [ARRAY, right], WRONG), ("in the second of two at once", [ARRAY + right], WRONG),
            ("in the last of sixteen at once", [ARRAY * 15 + right], WRONG), ("in another field", [right.replace(b'"key"', b'"keys"')], WRONG),
            ("in a field of a field", [ATTACH[:-2] + b',"x":' + right[:-1] + b"}\n"], WRONG),
        ]:
            with contextlib.closing(server.link()) as link:
                answers = [answer for answer in (say(link, line) for line in lines) if answer]
                see(answers[:1] == [wanted], f"{what}: {answers}")
                see(answers[1:] in ([], [b""]) and say(link, ARRAY) == b"", f"{what}: it goes on: {answers}")
        with contextlib.closing(server.link()) as link:
            for line in (b"[" + right[:-1] + b"]\n", right[1:], b'"' + KEYS["comfort"].encode() + b'"\n'):
                answer = say(link, line)
                see(answer.startswith(b'{"error":"malformed"'), f"a line that is no object: {answer!r}")
            see(say(link, ARRAY) == WRONG, "a key in a line that is no object let it in")
        for _ in range(2):
            # A line that is too long is told so, whatever it shows; nothing more is read.
            with contextlib.closing(server.link()) as link:
                answer = say(link, right[:-2] + b',"x":"' + b"x" * 70_000 + b'"}\n')
                see(answer in (b'{"error":"too-long"}\n', b""), f"a line that is too long: {answer[:80]!r}")
    return "let in by none of them"


def replayed(place: Place) -> str:
    """The key of one name for each other one, in an attach, a question and a watch; and the line of one, as it was seen on the way, with another name in it."""
    count = 0
    with with_keys(place, 4) as server:
        for process, key in KEYS.items():
            for name in ("comfort", "page", "night-1", "night", "nigh", "comfor", "comfortx", "operator", ""):
                if name and (name == process or process.endswith("*") and name.startswith(process[:-1])):
                    continue
                for line in (json.dumps({"op": "attach", "process": name}), json.dumps({"op": "read", "point": "air.damper", "as": name}),
                             json.dumps({"op": "watch", "process": name}), json.dumps({"op": "attach", "process": process, "as": name})):
                    answers = alone(server, shown(line.encode(), key))
                    see(answers == [WRONG], f"the key of {process} in {line}: {answers}")
                    count += 1
        # The key says who one is for questions, and to watch another process is a question.
        with contextlib.closing(server.link()) as link:
            link.sendall(shown(b'{"op":"watch","process":"comfort","as":"page"}', KEYS["page"]))
            link.settimeout(1)
            try:
                told = link.recv(100)
                see(False, f"a watch under a right key was answered {told!r}, or ended")
            except socket.timeout:
                pass
    return f"{count} lines, each answered wrong-key"


def another_name_later(place: Place) -> str:
    """An attach of another name over a connection that has shown a key: it is over, also for who has the other name's key, and what it held goes as with any end."""
    with with_keys(place, 6) as server, contextlib.closing(server.link()) as look:
        see(b'"ok":"read"' in say(look, shown(READ, KEYS["page"])), "the page is not let in")
        for second in (ATTACH.replace(b"comfort", b"page"), shown(ATTACH.replace(b"comfort", b"page"), KEYS["page"]),
                       shown(ATTACH.replace(b"comfort", b"page"), KEYS["comfort"], **{"as": "comfort"})):
            with contextlib.closing(server.link()) as link:
                see(eventually(lambda: b'"ok":"attached"' in say(link, shown(ATTACH, KEYS["comfort"])), SLACK), "comfort is not let in")
                see(b'"ok":"accepted"' in say(link, HOLD) and b'"value":60000' in say(look, ARRAY), "the damper was not taken")
                see(say(link, second) == WRONG and say(link, ARRAY) == b"", f"{second!r} was not the end")
                see(eventually(lambda: b'"value":60000' not in say(look, ARRAY), SLACK), "the lease stands")
        # Who was let in to ask attaches under his own name alone.
        see(say(look, ATTACH) == WRONG, "a connection of page attached as comfort")
    return "each was the end of its connection, and of what that held"


def taken_away(place: Place) -> str:
    """Whose key was stolen holds the damper at level 1, with days of reversions. The key is taken away, as docs/OPERATIONS.md has it, and
    `bossctl evict` ends what it held by the administrator's key, and by no other one."""
    owner = key_of("owner")
    shows = {name: write(os.path.join(place.path, f"{name}.key"), key, 0o600) for name, key in {**KEYS, "owner": owner}.items() if "*" not in name}

    def evict(server: Served, name: str) -> Ended:
        return bossctl(server, "evict", "comfort", "--key", shows[name])

    with served(place, 4, journal=place.journal, files=["-", "-", file_of(place, {**KEYS, "*": owner})]) as server:
        with contextlib.closing(server.link()) as link:
            see(b'"ok":"accepted"' in [say(link, line) for line in (shown(ATTACH, KEYS["comfort"]), STAY)][-1], "the damper was not taken")
            told = evict(server, "owner")
            see(told.status == 1 and "refused: taken" in told.errors and "file of keys" in told.errors, f"while it is attached: {told}")
            server.stop()
    with served(place, 4, journal=place.journal, files=["-", "-", file_of(place, {"page": KEYS["page"], "*": owner})]) as server:
        for name in ("comfort", "page"):
            told = evict(server, name)
            see(told == Ended(1, "", "bossctl: refused: wrong-key: the server has no such key for comfort\n"), f"by the key of {name}: {told}")
        told = evict(server, "owner")
        see(told.status == 0 and "comfort: ended 1 lease; it holds nothing any more" in told.output, f"by the administrator's: {told}")
        with contextlib.closing(server.link()) as link:
            see(json.loads(say(link, shown(READ, KEYS["page"])))["from"] == "default", "the damper is not at its default")
            see(json.loads(say(link, ARRAY))["slots"] == 16 * [None], "something stands at the damper yet")
    return "ended by the administrator's key, once its own is out; another one is told wrong-key"


# ---- many

class Asked(NamedTuple):
    """How many were answered, and the time in milliseconds behind which half and behind which a hundredth of the answers lie."""
    number: int
    half: float
    hundredth: float


class Asker(threading.Thread):
    """Asks over a connection of its own until it is told to end, a thousand times a second at most. `times` are in seconds."""

    def __init__(self, server: Served, ended: threading.Event) -> None:
        super().__init__(daemon=True)
        self.server, self.ended = server, ended
        self.times: List[float] = []
        self.fault = ""

    def run(self) -> None:
        with contextlib.closing(self.server.link()) as link:
            link.setsockopt(socket.IPPROTO_TCP, socket.TCP_NODELAY, 1)
            first = shown(READ, KEYS["page"])
            while not self.ended.is_set():
                began = time.monotonic()
                answer = say(link, first)
                first = ARRAY
                if not answer.startswith(b'{"ok"'):
                    self.fault = f"an asker was answered {answer!r}"
                    return
                self.times.append(time.monotonic() - began)
                time.sleep(0.001)


def asked_for(server: Served, seconds: float) -> Asked:
    """How soon those who have a key are answered in these seconds."""
    ended = threading.Event()
    askers = [Asker(server, ended) for _ in range(ASKERS)]
    for asker in askers:
        asker.start()
    time.sleep(seconds)
    ended.set()
    for asker in askers:
        asker.join(SOON)
        see(not asker.fault and not asker.is_alive(), asker.fault or "an asker waits for ever")
    times = sorted(one for asker in askers for one in asker.times)
    see(len(times) >= 100, f"those who have a key were answered {len(times)} times in {seconds:.0f} s")
    return Asked(len(times), 1000 * times[len(times) // 2], 1000 * times[len(times) * 99 // 100])


# A program of a stranger: shows wrong keys over a connection each, so many a second, and prints how many, and how many were told anything else.
STRANGER = """
import socket, sys, time
port, rate, until, place = int(sys.argv[1]), float(sys.argv[2]), time.monotonic() + float(sys.argv[3]), int(sys.argv[4])
line = b'{"op":"attach","process":"comfort","key":"bk1_%039d"}\\n'
began, made, odd = time.monotonic(), 0, 0
while time.monotonic() < until:
    try:
        link = socket.socket()
        link.bind(("127.0.%d.%d" % (1 + place, 1 + made % 250), 0))
        link.settimeout(15)
        link.connect(("127.0.0.1", port))
        link.sendall(line % made)
        odd += link.recv(100) != b'{"error":"wrong-key"}\\n'
        link.close()
        made += 1
    except OSError:
        odd += 1
    ahead = began + made / rate - time.monotonic()
    if ahead > 0.001:
        time.sleep(ahead)
print(made, odd)
"""


def many_wrong_keys(place: Place) -> str:
    """Strangers show 10,000 wrong keys a second, as far as this machine makes them, while others are served: those are, all of them."""
    with with_keys(place, 32) as server:
        before = asked_for(server, LONG / 2)
        strangers = [subprocess.Popen([sys.executable, "-c", STRANGER, str(server.port), str(RATE / STRANGERS), str(LONG), str(number)],
                                      stdout=subprocess.PIPE, text=True) for number in range(STRANGERS)]
        try:
            during = asked_for(server, LONG)
        finally:
            told = [stranger.communicate(timeout=SOON)[0].split() for stranger in strangers]
        made, odd = (sum(int(one[place]) for one in told) for place in range(2))
        after = asked_for(server, LONG / 2)
        see(made >= 1000, f"the strangers showed {made} keys alone: look at this machine")
        see(odd <= made / 100, f"{odd} of {made} wrong keys were told something else, or nothing")
        see(during.hundredth <= max(100.0, SLOWER * before.hundredth), f"a hundredth waited {during.hundredth:.1f} ms, and {before.hundredth:.1f} before")
    return (f"{made / LONG:.0f} wrong keys a second for {LONG:.0f} s, {odd} of them without that answer; of those who have a key a hundredth waited "
            f"{before.hundredth:.2f} ms before, {during.hundredth:.2f} meanwhile and {after.hundredth:.2f} after; a load of {os.getloadavg()[0]:.1f}")


# ---- workers that are kept

# How long, in seconds, a worker that is kept waits for a first line; by when one with a key is served behind SILENT strangers at four workers,
# two of which are kept; and how long he waits there in vain where none is.
SHOWING, SERVED, IN_VAIN, SILENT = 1.0, 4.0, 6.0, 8


def silent_beside_reserve(place: Place) -> str:
    """Twice as many strangers as there are workers, who say nothing: behind them who has a key is served within four seconds where half of the
    workers are kept, and is not within six where none is. What he holds at a worker that is kept he holds on, though he is still."""
    with with_keys(place, 4, reserve=2) as server, contextlib.ExitStack() as stack:
        beside(server, stack)
        after = answered_after(server, stack, SERVED)
        see(after is not None, f"who has a key is not served within {SERVED} s, though two workers of four are kept")
    with with_keys(place, 4) as server, contextlib.ExitStack() as stack:
        beside(server, stack)
        see(answered_after(server, stack, IN_VAIN) is None, f"who has a key is served within {IN_VAIN} s, though no worker is kept: this case shows nothing")
    # More are kept than there are.
    with with_keys(place, 2, reserve=1_024) as server, contextlib.ExitStack() as stack:
        still = stack.enter_context(contextlib.closing(server.link()))
        see(b'"ok":"attached"' in say(still, shown(ATTACH, KEYS["comfort"])) and b'"ok":"accepted"' in say(still, HOLD), "comfort is not let in")
        began = time.monotonic()
        slow = stack.enter_context(contextlib.closing(server.link()))
        slow.sendall(b'{"op":"read",')
        while not is_over(slow) and time.monotonic() - began < SHOWING + SLACK:
            time.sleep(0.1)
            with contextlib.suppress(OSError):
                slow.send(b" ")
        ended = time.monotonic() - began
        see(SHOWING - 0.1 <= ended < SHOWING + SLACK, f"a first line that does not end is over after {ended:.1f} s")
        time.sleep(2 * SHOWING)
        see(b'"value":60000' in say(still, ARRAY), "who has shown a key and was still then has lost his connection")
    return f"served after {after:.1f} s behind {SILENT}; not within {IN_VAIN:.0f} s without a reserve; a first line without an end is over after {ended:.1f} s"


def blank_beside_reserve(place: Place) -> str:
    """A stranger whose lines are blank, or no object, at workers that are kept: none shows a key, and none ends his connection. He is ended after a
    second all the same, also where he goes on with such lines; who shows his key behind one is not."""
    lines = (b"\n", b"{\n", b"[]\n")
    with with_keys(place, len(lines), reserve=len(lines)) as server, contextlib.ExitStack() as stack:
        links = [stack.enter_context(contextlib.closing(server.link())) for _ in lines]
        for link, line in zip(links, lines):
            link.sendall(line)
        began = time.monotonic()
        while time.monotonic() - began < SHOWING + SLACK and not is_over(links[0]):
            time.sleep(0.1)
            with contextlib.suppress(OSError):
                links[0].send(lines[0])
        ended = time.monotonic() - began
        see(ended < SHOWING + SLACK, f"who sends blank lines again and again is there after {ended:.1f} s")
        after = answered_after(server, stack, SERVED)
        see(after is not None, f"who has a key is not served within {SERVED} s behind them")
        late = stack.enter_context(contextlib.closing(server.link()))
        see(b'"error":"malformed"' in say(late, b"x\n"), "a line that is none is not told as malformed")
        see(b'"ok":"attached"' in say(late, shown(ATTACH, KEYS["comfort"])), "comfort is not let in behind a line that is none")
        time.sleep(2 * SHOWING)
        see(b'"ok"' in say(late, ARRAY), "who has shown a key behind a line that is none has lost his connection")
    return f"blank lines are over after {ended:.1f} s; who has a key is served after {after:.1f} s more"


def beside(server: Served, stack: contextlib.ExitStack) -> None:
    """Strangers who connect and say nothing, for as long as the stack is open."""
    for _ in range(SILENT):
        stack.enter_context(contextlib.closing(server.link()))


def answered_after(server: Served, stack: contextlib.ExitStack, within: float) -> Optional[float]:
    """After how many seconds a question with a key is answered, by one who connects now; None where it is not within so many."""
    began = time.monotonic()
    link = stack.enter_context(contextlib.closing(server.link()))
    link.settimeout(within)
    answer = say(link, shown(READ, KEYS["page"]))
    see(answer == b"" or b'"ok":"read"' in answer, f"who has a key is answered {answer!r}")
    return time.monotonic() - began if answer else None


# ---- where a key may be left

def left_nowhere(place: Place) -> str:
    """A key that was shown, right or wrong, is in no file of the journal, no feed, no line of the log, no answer, no notice and no file of a core."""
    key, wrong = KEYS["comfort"].encode(), key_of("wrong").encode()
    answers: List[bytes] = []
    keys = file_of(place)
    with served(place, 4, "prlimit", "--core=0:0", journal=place.journal, files=["-", "-", keys]) as server:
        with contextlib.closing(server.link()) as link, contextlib.closing(server.link()) as watch:
            watch.sendall(shown(b'{"op":"watch","process":"comfort","as":"page"}', KEYS["page"]))
            answers += [say(link, shown(ATTACH, KEYS["comfort"])), say(link, shown(HOLD, KEYS["comfort"])), say(link, shown(HOLD, key_of("wrong"))),
                        say(link, b'{"op":"cancel","txn":1,"key":"' + key + b'"}\n'), watch.recv(65_536), say(link, b'{"op":"dance","key":"' + key + b'"}\n'),
                        say(link, b'{"op":"read","key":"' + key + b'"}\n')]
        for line in (shown(ATTACH, key_of("wrong")), b'{"key":"' + key + b'"\n', shown(ARRAY, KEYS["comfort"])):
            answers += alone(server, line)
        limits = text_of(f"/proc/{server.process.pid}/limits")
        see("Max core file size        0                    0" in limits, f"a core may be written: {limits}")
        server.process.send_signal(signal.SIGABRT)
        server.process.wait(SOON)
        assert server.process.stderr is not None
        log = "".join(server.lines).encode() + server.process.stderr.read()
    feed = run([place.program, "feed", place.catalogue, place.journal, "0"], os.environ).output
    spelled = bytes.fromhex("".join(line.split()[-1] for line in feed.splitlines() if line.startswith(("event ", "part "))))
    files = {name: open(os.path.join(place.folder, name), "rb").read() for name in os.listdir(place.folder)}
    see(b"comfort" in files["journal"] and b"comfort" in spelled, "the journal or the feed does not have the process, so look where it is")
    for what, found in [*files.items(), ("the feed", spelled), ("the feed's text", feed.encode()), ("the log", log), ("the answers", b"".join(answers))]:
        for one in (key, wrong, digest(KEYS["comfort"]).encode(), bytes.fromhex(digest(KEYS["comfort"])), key[:16], key[-16:]):
            see(one not in found, f"{what} has a key, a part of one or its digest")
    see(not any(name.startswith("core") for name in os.listdir(place.folder) + os.listdir(".")), "a core was written")
    return f"in none of {len(files)} files, the feed, the log and {len(answers)} answers; no core"


def units_without_cores(place: Place) -> str:
    """Each unit whose program has a key in its memory writes no core, and has its own key as a credential."""
    for unit in ("bossd", "bossd-console", "bossd-schedule", "bossd-mqtt@", "bossd-overrides"):
        text = text_of(os.path.join(PACKAGING, f"{unit}.service"))
        see("\nLimitCORE=0\n" in text, f"{unit} may write a core")
        see(unit == "bossd" or "\nLoadCredential=key:/etc/bossd/keys/" in text, f"{unit} has no credential")
        see(unit == "bossd" or "--key %d/key" in text, f"{unit} is not given its key")
    return "LimitCORE=0 in all five, a credential in four"


def takes_keys(place: Place) -> bool:
    """Whether the program takes a file of keys."""
    words = [place.program, "serve", place.catalogue, "-", f"127.0.0.1:{free_port()}", "1", "1", "-", "-", write(os.path.join(place.path, "no.toml"), "key = 0\n")]
    return run(words, os.environ).output == "keys missing\n"


WITH_KEYS: Sequence[Case] = (
    guessed, in_the_wrong_place, replayed, another_name_later, taken_away, many_wrong_keys, silent_beside_reserve, blank_beside_reserve,
    left_nowhere,
)
EVER: Sequence[Case] = (units_without_cores,)
