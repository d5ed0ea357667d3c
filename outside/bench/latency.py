"""Measures what the built program does as a server, beside Redis and etcd.

Measures the built program (./bossd; BOSSD names another one) as it serves, and prints a table: requests a second, the time behind which half and behind which a
hundredth of the answers lie, and the processor time that the server took for each, over 1, 8 and 32 connections, one by one and with
sixteen requests under way on each. bossd runs on memory alone and on a journal; beside it Redis, which syncs its log at each change as
bossd does, and etcd, on the same disk.

    bench/latency [SECONDS [WORD..]]

SECONDS is how long each row runs, 3 where it is left out. A WORD that is memory, journal, redis or etcd is a server that is measured, all of
them where none is named; submit, renew or read is what is asked, all three where none is named; a number, 1 to 1,024, is how many connections
there are, in place of 1, 8 and 32. Of submits and renewals there are at most 256: there are no more control processes.

A submit is put beside a key that is set with a time to live and a lease that is granted, a renewal beside a time to live that is set anew
and a lease that is kept alive. It needs a C compiler; redis-server and etcd are left out where they are not there. BENCH_FOLDER says
where the files go."""

import os
import shutil
import subprocess
import sys
import tempfile
import time
from collections.abc import Callable, Sequence

from outside import TOP
from outside.cases import heed_help
from outside.program import PROGRAM, free_port, heading, listens, need_program

CONNECTIONS, DEPTHS = [1, 8, 32], [1, 16]
# How many connections there may be of whom a server knows who they are, and of all of them.
MOST_PROCESSES, MOST_CONNECTIONS = 256, 1024


def bossd(folder: str, port: int, journal: str, most: int) -> list[str]:
    catalogue = os.path.join(folder, "plant.toml")
    with open(catalogue, "w") as file:
        file.write('drivers = ["field"]\n' + "".join(
            f'[[point]]\nname = "p{place}"\ndriver = "field"\nkind = "analog"\nmin = 0\nmax = 100000\ndefault = 0\n'
            for place in range(most)))
    return [PROGRAM, "serve", catalogue, journal, f"127.0.0.1:{port}", str(most), "1000000"]


def redis(folder: str, port: int, most: int) -> list[str]:
    return ["redis-server", "--port", str(port), "--dir", folder, "--save", "", "--appendonly", "yes", "--appendfsync", "always"]


def etcd(folder: str, port: int, most: int) -> list[str]:
    client, peer = f"http://127.0.0.1:{port}", f"http://127.0.0.1:{free_port()}"
    return ["etcd", "--data-dir", folder, "--listen-client-urls", client, "--advertise-client-urls", client,
            "--listen-peer-urls", peer, "--initial-advertise-peer-urls", peer, "--initial-cluster", f"default={peer}"]


# What is started, with room for so many connections, and what is asked of it.
SERVERS: dict[str, tuple[Callable[[str, int, int], list[str]], dict[str, str]]] = {
    "memory": (lambda folder, port, most: bossd(folder, port, "-", most),
               {"submit": "bossd-submit", "renew": "bossd-renew", "read": "bossd-read"}),
    "journal": (lambda folder, port, most: bossd(folder, port, os.path.join(folder, "journal"), most),
                {"submit": "bossd-submit", "renew": "bossd-renew", "read": "bossd-read"}),
    "redis": (redis, {"submit": "redis-set", "renew": "redis-pexpire", "read": "redis-pttl"}),
    "etcd": (etcd, {"submit": "etcd-grant", "renew": "etcd-keepalive"}),
}
ASKED = ["submit", "renew", "read"]


def measure(load: str, name: str, asked: Sequence[str], numbers: Sequence[int], seconds: float, folder: str) -> None:
    start, kinds = SERVERS[name]
    port = free_port()
    words = start(folder, port, max(numbers))
    if not shutil.which(words[0]):
        print(f"| {name} | is not here | | | | | | |", flush=True)
        return
    server = subprocess.Popen(words, stdin=subprocess.DEVNULL, stdout=subprocess.DEVNULL, stderr=subprocess.DEVNULL)
    try:
        while not listens(port):
            if server.poll() is not None:
                sys.exit(f"latency: {words[0]} ended with {server.returncode}")
            time.sleep(0.1)
        # etcd listens a moment before it has a leader.
        time.sleep(3)
        for kind in [kinds[one] for one in asked if one in kinds]:
            for depth in DEPTHS:
                for connections in numbers:
                    row(load, name, kind, server, port, connections, depth, seconds)
    finally:
        server.terminate()
        server.wait()


def taken(server: subprocess.Popen[bytes]) -> float:
    """How many seconds of processor the threads of a process took."""
    with open(f"/proc/{server.pid}/stat") as file:
        user, system = file.read().rpartition(")")[2].split()[11:13]
    return (int(user) + int(system)) / os.sysconf("SC_CLK_TCK")


def row(load: str, name: str, kind: str, server: subprocess.Popen[bytes], port: int, connections: int, depth: int, seconds: float) -> None:
    words = [load, str(port), kind, str(connections), str(depth), str(seconds)]
    before = taken(server)
    ran = subprocess.run(words, capture_output=True, text=True, timeout=60 + 10 * seconds)
    if ran.returncode:
        sys.exit(f"latency: {kind} over {connections}: {ran.stderr.strip()}")
    rate, half, most = map(float, ran.stdout.split())
    each = (taken(server) - before) / (rate * seconds) * 1e6
    print(f"| {name} | {kind} | {connections} | {depth} | {rate:,.0f} | {half / 1000:.2f} | {most / 1000:.2f} | {each:.1f} |", flush=True)
    time.sleep(0.2)


def syncs(folder: str, seconds: float = 1.0) -> float:
    """How many appends of 44 bytes this disk syncs in a second."""
    count, end = 0, time.monotonic() + seconds
    with open(os.path.join(folder, "plain"), "wb", buffering=0) as file:
        while time.monotonic() < end:
            file.write(bytes(44))
            os.fdatasync(file.fileno())
            count += 1
    return count / seconds


def split(words: Sequence[str]) -> tuple[list[str], Sequence[str], Sequence[int]]:
    """The servers, what is asked of them and over how many connections, as the words say it."""
    numbers = [int(word) for word in words if word.isdigit()]
    servers = [word for word in words if word in SERVERS]
    asked = [word for word in words if word in ASKED]
    most = MOST_CONNECTIONS if asked == ["read"] else MOST_PROCESSES
    if len(numbers) + len(servers) + len(asked) < len(words) or not all(1 <= number <= most for number in numbers):
        sys.exit(f"latency: no such words; {__doc__}")
    return servers or list(SERVERS), asked or ASKED, numbers or CONNECTIONS


def main() -> None:
    heed_help(__doc__)
    need_program()
    seconds = float(sys.argv[1]) if len(sys.argv) > 1 else 3.0
    servers, asked, numbers = split(sys.argv[2:])
    with tempfile.TemporaryDirectory(dir=os.environ.get("BENCH_FOLDER")) as folder:
        load = os.path.join(folder, "load")
        subprocess.run(["cc", "-O2", "-o", load, os.path.join(TOP, "bench", "load.c")], check=True)
        print(f"{heading()}; {syncs(folder):,.0f} appends a second are synced by this disk, one by one\n")
        print("| on | asked | connections | under way on each | a second | half within, ms | 99 of 100 within, ms | processor, us |\n" + "|---" * 8 + "|")
        for name in servers:
            within = os.path.join(folder, name)
            os.mkdir(within)
            measure(load, name, asked, numbers, seconds, within)


if __name__ == "__main__":
    main()
