"""Bytes of journals, written by the tables of docs/FORMATS.md and not by the program."""

import hashlib

# The canonical text of examples/floor.toml.
FLOOR = b"d field\np ahu1.damper field analog 0 100000 20000\np lamp field binary 0 1 0\np fan field multi 1 3 1\n"
DIGEST = hashlib.sha256(FLOOR).digest()
SHUT = b"\0"


def number(size, value):
    return value.to_bytes(size, "big", signed=value < 0)


def many(size, items):
    """A list: its number of items, and then each."""
    return number(size, len(items)) + b"".join(items)


def name(text):
    return number(1, len(text)) + text.encode()


# ---- disks

def journal(*records, digest=DIGEST, version=2):
    """The disk of a journal, up to its last gate, which is shut."""
    return b"BOSSJRNL" + number(1, version) + digest + b"".join(records) + SHUT


def kept(generation, before, state, *records, digest=DIGEST):
    """The disk of a kept state, and a log after it."""
    return b"BOSSSNAP" + number(1, 2) + digest + number(8, generation) + number(8, before) + number(8, len(state)) + state + b"".join(records) + SHUT


def record(*events):
    """An open gate and a record of some events. The next gate is not in it."""
    data = b"".join(events)
    return b"\1" + number(4, len(data)) + data


# ---- events

def taken_on(at, process):
    return b"\1" + number(8, at) + name(process)


def steps(way):
    return many(1, [number(8, value) + number(4, hold) for value, hold in way])


def write(point, value, priority, lease, way=()):
    return number(4, point) + number(8, value) + number(1, priority) + number(4, lease) + steps(way)


def submit(at, owner, *writes, seq=None):
    """A submit under the policy abort, with a number or without one."""
    kind = b"\2" if seq is None else b"\x08"
    return kind + number(8, at) + number(2, owner) + (b"" if seq is None else number(8, seq)) + b"\0" + many(1, writes)


def cancel(at, owner, txn):
    return b"\4" + number(8, at) + number(2, owner) + number(8, txn)


def time_passed(at):
    return b"\6" + number(8, at)


# ---- states

def process(text):
    """A process without notices or a kept reply."""
    return name(text) + number(8, 0) + number(2, 0) + b"\0"


def running(txn, owner, point, priority):
    """The record of a transaction whose one lease is live."""
    return number(8, txn) + number(2, owner) + b"\0" + number(1, 1) + number(4, point) + number(1, priority) + b"\0"


def expired(txn, owner, point, priority, at):
    """The record of a transaction whose one lease ran out at a moment."""
    return number(8, txn) + number(2, owner) + b"\0" + number(1, 1) + number(4, point) + number(1, priority) + b"\1" + b"\0" + number(8, at)


def lease(txn, owner, point, priority, value, until, way=()):
    return number(8, txn) + number(2, owner) + number(4, point) + number(1, priority) + number(8, value) + number(8, until) + b"\0" + steps(way)


def reversion(txn, owner, point, priority, start, way):
    return number(8, txn) + number(2, owner) + number(4, point) + number(1, priority) + number(8, start) + steps(way)


def state(now, following, processes=(), records=(), leases=(), reversions=()):
    """A state without transactions that are done."""
    return number(8, now) + number(8, following) + many(2, processes) + many(4, records) + number(2, 0) + many(4, leases) + many(4, reversions)
