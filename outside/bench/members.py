"""Measures submits over a journal in etcd, beside etcd's own puts.

Three members of etcd on this machine's loopback keep the journal of the built program (./bossd; BOSSD names another one). Prints a table: requests
a second, the time behind which half and behind which a hundredth of the answers lie, and the processor time that the server took for each, over
1, 8 and 32 connections, one by one and with sixteen requests under way on each. Submits are put beside those over a journal in files, and beside
puts of 36 bytes that are asked of the members' leader.

    bench/members [SECONDS [CONNECTIONS ..]]

SECONDS is how long each row runs, 3 where it is left out; CONNECTIONS, 1 to 256, go in place of 1, 8 and 32. It needs a C compiler, etcd and
etcdctl. BENCH_FOLDER says where the files go: all members write to that one disk."""

import os
import subprocess
import sys
import tempfile
import time

from outside import TOP
from outside.bench.latency import CONNECTIONS, DEPTHS, MOST_PROCESSES, row, syncs
from outside.cases import heed_help
from outside.members import Cluster, need_etcd
from outside.program import Server, heading, need_program


# How long clients may take to be known as gone, in seconds.
LEAVE = 2.0


def catalogue_in(folder: str, most: int) -> str:
    path = os.path.join(folder, "plant.toml")
    with open(path, "w") as file:
        file.write('drivers = ["field"]\n' + "".join(
            f'[[point]]\nname = "p{place}"\ndriver = "field"\nkind = "analog"\nmin = 0\nmax = 100000\ndefault = 0\n' for place in range(most)))
    return path


def submits(load: str, name: str, catalogue: str, journal: str, numbers: list[int], seconds: float) -> None:
    """Rows of a server."""
    with Server(catalogue, journal, workers=max(numbers) + 4) as server:
        for depth in DEPTHS:
            for connections in numbers:
                row(load, name, "bossd-submit", server.process, server.port, connections, depth, seconds)
                # The next row's processes have the same names, which are the last one's until the server knows that these are gone.
                time.sleep(LEAVE)


def main() -> None:
    heed_help(__doc__)
    need_program()
    need_etcd()
    seconds = float(sys.argv[1]) if len(sys.argv) > 1 else 3.0
    numbers = [int(word) for word in sys.argv[2:]] or CONNECTIONS
    if not all(1 <= number <= MOST_PROCESSES for number in numbers):
        sys.exit(f"members: there are 1 to {MOST_PROCESSES} connections")
    with tempfile.TemporaryDirectory(dir=os.environ.get("BENCH_FOLDER")) as folder:
        load, catalogue = os.path.join(folder, "load"), catalogue_in(folder, max(numbers))
        subprocess.run(["cc", "-O2", "-o", load, os.path.join(TOP, "bench", "load.c")], check=True)
        print(f"{heading()}; {syncs(folder):,.0f} appends a second are synced by this disk, one by one\n")
        print("| on | asked | connections | under way on each | a second | half within, ms | 99 of 100 within, ms | processor, us |\n" + "|---" * 8 + "|")
        submits(load, "files", catalogue, os.path.join(folder, "journal"), numbers, seconds)
        with Cluster(os.path.join(folder, "members"), more=("--auto-compaction-mode", "revision", "--auto-compaction-retention", "10000")) as cluster:
            submits(load, "three members", catalogue, cluster.plain_word("plant"), numbers, seconds)
            leader = cluster.leader()
            for depth in DEPTHS:
                for connections in numbers:
                    row(load, "three members", "etcd-put", leader.process, leader.client, connections, depth, seconds)


if __name__ == "__main__":
    main()
