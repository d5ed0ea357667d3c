#!/usr/bin/env python3
"""Flushes a building with cool night air: opens the damper and runs the fan high, for as long as this program lives.

    examples/night_purge.py [HOURS [ADDRESS]]

It holds both by leases of half a minute, which it renews. When it dies, by whatever cause, the server lets go: the damper closes in
two steps while the fan runs low, and then both are as others hold them, or at their defaults."""

import os
import sys

sys.path.insert(0, os.path.join(os.path.dirname(os.path.abspath(__file__)), "..", "clients", "python"))
import bossd

# After an operator, who has 8.
PRIORITY = 12
LEASE = bossd.milliseconds(seconds=30)
STEP = bossd.milliseconds(seconds=10)
HIGH, LOW = 3, 2


def writes():
    closing = [(bossd.thousandths(60), STEP), (bossd.thousandths(40), STEP)]
    return [
        bossd.write("air.damper", bossd.thousandths(100), priority=PRIORITY, lease=LEASE, revert=closing),
        bossd.write("air.fan", HIGH, priority=PRIORITY, lease=LEASE, revert=[(LOW, 2 * STEP)]),
    ]


def main():
    hours = float(sys.argv[1]) if len(sys.argv) > 1 else 6.0
    address = sys.argv[2] if len(sys.argv) > 2 else "127.0.0.1:7000"
    with bossd.Client(address, "night-purge") as client, client.hold(writes()) as held:
        print(f"night purge: damper open and fan high, by transaction {held.txn}", flush=True)
        if held.wait(hours * 3600):
            sys.exit(f"night purge: held no longer: {held.ended}")
    print("night purge: over, both let go")


if __name__ == "__main__":
    main()
