"""Reads the files of a journal, and the lines of a feed, apart from the program, by docs/FORMATS.md: what tools/standby and bench/feed
compare with. How many bytes an event or a state has is found by the reader of `bossctl journal`."""

import os
from typing import NamedTuple

from bossd.ctl import _journal

LONGEST_LINE, LONGEST_PART = 65_535, 16_384
LAST_NUMBER, LARGEST_STATE = 1 << 62, 1 << 27
NEW = b""


class Pair(NamedTuple):
    """What a pair of files holds: a state after so many events, by its bytes, none where it is the first one; and the events since, by
    theirs. `next` is the number of the transaction that comes next."""
    before: int
    state: bytes
    events: list[bytes]
    next: int

    @property
    def count(self) -> int:  # type: ignore[override]
        return self.before + len(self.events)

    def event(self, number: int) -> bytes:
        return self.events[number - self.before - 1]

    def feed(self, start: int) -> list[bytes]:
        """The feed above this number, as lines without their ends."""
        lines = []
        if start < self.before:
            lines = [b"state %d %d" % (self.before, len(self.state))]
            lines += [b"part " + self.state[place:place + LONGEST_PART].hex().encode() for place in range(0, len(self.state), LONGEST_PART)]
        first = max(start, self.before) + 1
        return lines + [b"event %d %s" % (number, self.event(number).hex().encode()) for number in range(first, self.count + 1)]


def split(record: bytes, version: int) -> list[tuple[_journal.Event, bytes]]:
    """The bytes of each event of a record."""
    source, found = _journal.Bytes(record), []
    while source.place < len(record):
        begun = source.place
        event = _journal.event_of(source, version)
        found.append((event, record[begun:source.place]))
    return found


def pair_of(path: str) -> Pair:
    """What the files of this name hold; not of version 1, since what that holds is spelled in another way."""
    if not (os.path.exists(path) or os.path.exists(path + ".b")):
        return Pair(0, NEW, [], 1)
    journal = _journal.find(path)
    if journal is None:
        return Pair(0, NEW, [], 1)
    if journal.version < 2:
        raise ValueError(f"{path} has version {journal.version}")
    events, following, gate = [], journal.state.next, journal.gate
    while True:
        record, after = _journal.record_at(journal.data, gate, journal.seed)
        if record is None:
            break
        for event, spelled in split(record, journal.version):
            events.append(spelled)
            following += event.kind == "submit"
        gate = after
    state = NEW if journal.generation is None else journal.spelled
    return Pair(journal.before, state, events, following)


def cut(path: str, copy: str, number: int) -> bool:
    """A copy of a journal up to this event, as if the program had stopped there. Whether there is one: not where the file in force begins
    behind it, or ends before it."""
    journal = _journal.find(path)
    if journal is None or number < journal.before:
        return False
    count, gate, kept = journal.before, journal.gate, bytearray(journal.data[:journal.gate])
    while count < number:
        record, gate = _journal.record_at(journal.data, gate, journal.seed)
        if record is None:
            return False
        some = [spelled for _, spelled in split(record, journal.version)[:number - count]]
        record, count = _journal.sealed(journal.seed, len(kept), b"".join(some)), count + len(some)
        kept += b"\1" + len(record).to_bytes(4, "big") + record
    for part in ("", ".b"):
        data = kept + b"\0" if path + part == journal.path else _journal.bytes_of(path + part)
        if data:
            with open(copy + part, "wb") as file:
                file.write(data)
    return True


class Told(NamedTuple):
    """What a feed tells: the last number that is whole in it, the events, and the states by their numbers."""
    last: int
    events: dict[int, bytes]
    states: dict[int, bytes]


def told_by(text: bytes) -> Told:
    """What the whole items of a feed tell, up to the first line that is none."""
    last, events, states, number, size, got = 0, {}, {}, 0, 0, b""
    for line in text.split(b"\n"):
        words = line.split(b" ")
        try:
            if words[0] == b"state" and size == 0:
                number, size, got = int(words[1]), int(words[2]), b""
            elif words[0] == b"part" and size:
                got += bytes.fromhex(words[1].decode())
                if len(got) >= size:
                    states[number], last, size = got, number, 0
            elif words[0] == b"event" and size == 0:
                data = bytes.fromhex(words[2].decode())
                source = _journal.Bytes(data)
                _journal.event_of(source, 2)
                if source.place != len(data):
                    break
                last = int(words[1])
                events[last] = data
            elif line:
                break
        except (IndexError, ValueError, KeyError):
            break
    return Told(last, events, states)


class End(NamedTuple):
    """How following ends: the status, the line but for the summary that comes with 0, and the number of events then."""
    status: int
    line: str
    count: int  # type: ignore[assignment]


def whole(word: bytes) -> int:
    """A number of a feed's line; ValueError where it is none."""
    if not word.isdigit() or str(int(word)).encode() != word or int(word) >= 1 << 64:
        raise ValueError
    return int(word)


def data_of(word: bytes) -> bytes:
    data = bytes.fromhex(word.decode())
    if not data or data.hex().encode() != word:
        raise ValueError
    return data


class Item:
    """A line of a feed; ValueError where it is none."""

    def __init__(self, line: bytes) -> None:
        words = line.split(b" ")
        self.kind = words[0]
        if self.kind == b"state" and len(words) == 3:
            self.number, self.size = whole(words[1]), whole(words[2])
        elif self.kind == b"part" and len(words) == 2:
            self.data = data_of(words[1])
        elif self.kind == b"event" and len(words) == 3:
            self.number, self.data = whole(words[1]), data_of(words[2])
        else:
            raise ValueError


def lines_of(text: bytes) -> list[bytes]:
    """The lines of an input: the rest behind the last line end is one where it is not empty."""
    lines = text.split(b"\n")
    return lines if lines[-1] else lines[:-1]


def is_event(data: bytes) -> bool:
    source = _journal.Bytes(data)
    try:
        _journal.event_of(source, 2)
    except (IndexError, KeyError):
        return False
    return source.place == len(data)


def end_of(count: int, text: bytes) -> End:
    """How a standby with so many events ends with this input, where each event that is one, and each state, can be taken."""
    due, taking = 0, None
    for place, line in enumerate(lines_of(text), 1):
        if len(line) > LONGEST_LINE:
            return End(13, "", count)
        if not line.strip(b" \t\r"):
            continue
        bad = End(18, f"standby bad-line {place}", count)
        try:
            item = Item(line)
        except ValueError:
            return bad
        if item.kind == b"part":
            if due == 0 or len(item.data) != min(LONGEST_PART, due):
                return bad
            due -= len(item.data)
            if due == 0 and taking is not None:
                count, taking = taking, None
        elif due:
            return bad
        elif item.kind == b"state":
            if item.number > LAST_NUMBER or item.size > LARGEST_STATE or item.size == 0 and item.number > count:
                return bad
            due, taking = item.size, item.number if item.number > count else None
        elif item.number > count + 1:
            return End(18, f"standby gap {count} {item.number}", count)
        elif item.number == count + 1:
            if item.number > LAST_NUMBER or not is_event(item.data):
                return bad
            count += 1
    return End(18, "standby short", count) if due else End(0, "standby events", count)
