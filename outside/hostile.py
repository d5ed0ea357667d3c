"""Has clients that mean no good come to the built program, while one that behaves holds a damper.

Has clients that mean no good come to the built program, one kind after another, while one that behaves holds a damper by a lease, renews
it and reads it. Whatever the others do, each of its answers has to be right and to come soon, and at the end the program has to be as
large as before and to end as it should.

    tools/hostile [CONNECTIONS]

So many connections come and go without a word, 20,000 where it is left out; a million is worth while now and then. Each end of one waits a
minute for stray packets, so they come from many addresses of this machine's own range. It needs the program built (./bossd), and ends with 1
at the first thing that is wrong."""

import itertools
import os
import random
import socket
import sys
import threading
import time
from collections.abc import Callable
from typing import NoReturn

import bossd
from outside import program
from outside.cases import heed_help

WORKERS = 4
POINT, VALUE = "ahu1.damper", 45_000
LEASE = bossd.milliseconds(seconds=5)
# How long an answer to the client that behaves may take, in seconds, and how much larger the program may be at the end, in kB.
SOON, GROWTH = 1.0, 2_048
# One more byte than a line may have.
TOO_LONG = 65_536
ROUNDS = 40
RANDOM = random.Random(1)


def wrong(what: str) -> NoReturn:
    sys.exit(f"hostile: {what}")


class Behaving(threading.Thread):
    """Holds the damper, renews its lease and reads it, over and over, and keeps the longest time that an answer took."""

    def __init__(self, address: str) -> None:
        super().__init__(daemon=True)
        self.address, self.over, self.asked, self.longest = address, threading.Event(), 0, 0.0
        self.error: Exception | None = None

    def run(self) -> None:
        try:
            with bossd.Client(self.address, "behaving", patience=SOON) as client:
                accepted = client.submit([bossd.write(POINT, VALUE, priority=8, lease=LEASE)])
                while not self.over.wait(0.01):
                    self.turn(client, accepted.txn)
        except Exception as error:
            self.error = error

    def turn(self, client: bossd.Client, txn: int) -> None:
        began = time.monotonic()
        client.renew(txn, LEASE)
        reading = client.read(POINT)
        self.longest, self.asked = max(self.longest, (time.monotonic() - began) / 2), self.asked + 2
        if reading.value != VALUE or reading.txn != txn:
            raise AssertionError(f"it holds {POINT} at {VALUE} by transaction {txn}, and reads {reading}")


class Server(program.Server):
    def __init__(self) -> None:
        super().__init__(os.path.join(program.EXAMPLES, "floor.toml"), workers=WORKERS)
        self.start()

    def connect(self, source: str = "127.0.0.1") -> socket.socket:
        return socket.create_connection(("127.0.0.1", self.port), timeout=10, source_address=(source, 0))


def reset(link: socket.socket) -> None:
    """Closes so that the other end's next read or write fails."""
    link.setsockopt(socket.SOL_SOCKET, socket.SO_LINGER, b"\1\0\0\0\0\0\0\0")
    link.close()


def heard_to_end(link: socket.socket) -> bytes:
    text = b""
    while more := link.recv(65_536):
        text += more
    return text


def half_a_line(server: Server) -> None:
    for turn in range(ROUNDS):
        link = server.connect()
        link.sendall(b'{"op":"attach","pro')
        link.close() if turn % 2 else reset(link)


def never_reads(server: Server) -> None:
    """Asks until nothing more is taken, and reads no answer."""
    link = server.connect()
    link.settimeout(1)
    try:
        while True:
            link.sendall(b'{"op":"array","point":"ahu1.damper"}\n' * 100)
    except OSError:
        pass
    time.sleep(1)
    reset(link)


def rubbish(server: Server) -> None:
    for _ in range(ROUNDS):
        link = server.connect()
        # No JSON begins with the first byte, so no key is at fault.
        lines = [b"#" + bytes(RANDOM.choice(range(33, 256)) for _ in range(RANDOM.randrange(200))) for _ in range(20)]
        link.sendall(b"\n".join(lines))
        link.shutdown(socket.SHUT_WR)
        answers = heard_to_end(link).split(b"\n")
        if answers != [b'{"error":"malformed"}'] * len(lines) + [b""]:
            wrong(f"{lines} answered {answers}")


def no_line_end(server: Server) -> None:
    for _ in range(ROUNDS):
        link = server.connect()
        link.sendall(b"x" * TOO_LONG)
        answer = heard_to_end(link)
        if answer != b'{"error":"too-long"}\n':
            wrong(f"a line too long answered {answer!r}")


def not_a_word(server: Server, connections: int) -> None:
    sources = itertools.cycle(f"127.1.{high}.{low}" for high in range(1, 8) for low in range(1, 255))
    for _, source in zip(range(connections), sources):
        server.connect(source).close()


def main() -> None:
    heed_help(__doc__)
    connections = int(sys.argv[1]) if len(sys.argv) > 1 else 20_000
    program.need_program()
    server = Server()
    behaving = Behaving(f"127.0.0.1:{server.port}")
    behaving.start()
    not_a_word(server, 200)
    before = server.memory()
    kinds: list[Callable[[Server], None]] = [half_a_line, never_reads, rubbish, no_line_end, lambda server: not_a_word(server, connections)]
    names = ["half a line", "never reads", "rubbish", "65,536 bytes without an end", f"{connections:,} without a word"]
    for kind, name in zip(kinds, names):
        asked, behaving.longest, began = behaving.asked, 0.0, time.monotonic()
        kind(server)
        time.sleep(0.2)
        if behaving.error or not behaving.is_alive() or behaving.asked == asked:
            wrong(f"{name}: the client that behaves: {behaving.error or 'no answer'}")
        print(f"{name}: {time.monotonic() - began:.1f} s; beside it {behaving.asked - asked} right answers, the slowest within {behaving.longest * 1000:.0f} ms", flush=True)
    behaving.over.set()
    behaving.join()
    if behaving.error:
        wrong(f"the client that behaves: {behaving.error}")
    grown = server.memory() - before
    print(f"memory: {before:,} kB before, {grown:+,} kB")
    if grown > GROWTH:
        wrong("it grew")
    server.kill()


if __name__ == "__main__":
    main()
