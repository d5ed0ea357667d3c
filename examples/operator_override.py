#!/usr/bin/env python3
"""Sets an analog point by hand for a while, before whatever control programs want, and shows what it has meanwhile and after it.

    examples/operator_override.py POINT UNITS SECONDS [ADDRESS]

The override has priority 8, which is that of a manual operator. When its time is over, or at Ctrl-C, its reversion leads half way back to
the point's default for ten seconds, unless a live lease of somebody else holds the point."""

import os
import sys
import time

sys.path.insert(0, os.path.join(os.path.dirname(os.path.abspath(__file__)), "..", "clients", "python"))
import bossd

MANUAL_OPERATOR = 8
STEP = bossd.milliseconds(seconds=10)


def sentence(reading):
    value = f"{reading.point} {bossd.units(reading.value):g}"
    if reading.basis == "default":
        return f"{value}: nobody holds it, this is its default"
    what = "a lease" if reading.basis == "lease" else "the reversion"
    return f"{value}: {what} of transaction {reading.txn} at priority {reading.priority}"


def show_until_done(client, point, txn):
    """Shows each change, up to the one after the override and whatever reversions were under way."""
    shown, over = None, False
    while not over:
        done, reading = client.status(txn).stage == "done", client.read(point)
        if sentence(reading) != shown:
            shown = sentence(reading)
            print(time.strftime("%H:%M:%S"), shown, flush=True)
        over = done and reading.basis != "pending"
        time.sleep(0.2)


def main():
    point, value, seconds = sys.argv[1], bossd.thousandths(sys.argv[2]), float(sys.argv[3])
    address = sys.argv[4] if len(sys.argv) > 4 else "127.0.0.1:7000"
    with bossd.Client(address, "operator") as client:
        half = (value + client.array(point).default) // 2
        print(time.strftime("%H:%M:%S"), sentence(client.read(point)), flush=True)
        lease = bossd.milliseconds(seconds=seconds)
        txn = client.submit([bossd.write(point, value, priority=MANUAL_OPERATOR, lease=lease, revert=[(half, STEP)])]).txn
        try:
            show_until_done(client, point, txn)
        except KeyboardInterrupt:
            client.cancel(txn)
            show_until_done(client, point, txn)


if __name__ == "__main__":
    main()
