"""What of a schedule never decides anything: the look of `--check` at two years."""

from dataclasses import replace
from datetime import date, time
from typing import List, Sequence, Set, Tuple

from .catalogue import Path, shown
from .days import DAY
from .reading import Play, Reader
from .week import Block, Programme, begins, local, special_of, standing

TWO_YEARS = 731


def note_idle(reader: Reader) -> None:
    """Notes blocks and exceptions that two years have no use for."""
    if reader.schedule is None:
        return
    for play in reader.schedule.plays:
        first = local(reader.moment, play.programme.zone).date()
        days = [first + number * DAY for number in range(TWO_YEARS)]
        note_idle_exceptions(reader, play, days)
        note_idle_blocks(reader, play, days)


def note_idle_exceptions(reader: Reader, play: Play, days: Sequence[date]) -> None:
    met = {special_of(play.programme, day) for day in days}
    for place, special in enumerate(play.programme.specials):
        if special not in met:
            reader.note(play.path + ("exception", place, "on"), shown(play.programme.name), "",
                        "no day of two years has it, or earlier exceptions have them all", False)


def note_idle_blocks(reader: Reader, play: Play, days: Sequence[date]) -> None:
    alone = replace(play.programme, events=())
    begun, decided = begin_and_decide(alone, days)
    for path, block in all_blocks(play):
        if block not in begun:
            reader.note(path, shown(play.programme.name), "", "no day of two years has it: its `days`, `only` and exceptions share none", False)
        elif block not in decided:
            reader.note(path, shown(play.programme.name), "", "it never decides: others begin with it or later, and end no sooner", False)


def all_blocks(play: Play) -> List[Tuple[Path, Block]]:
    """The blocks of a programme and where each stands; those of exceptions without a day are not looked at."""
    found = [(play.path + ("block", place), block) for place, block in enumerate(play.programme.blocks)]
    for number, special in enumerate(play.programme.specials):
        found += [(play.path + ("exception", number, "block", place), block) for place, block in enumerate(special.blocks)]
    return found


def begin_and_decide(programme: Programme, days: Sequence[date]) -> Tuple[Set[object], Set[object]]:
    """The blocks that begin on a day, and those that decide for a point at a moment. Days that are alike are looked at once."""
    begun: Set[object] = set()
    decided: Set[object] = set()
    looked: Set[Tuple[object, ...]] = set()
    for day in days:
        alike = (likeness(programme, day - DAY), likeness(programme, day), likeness(programme, day + DAY))
        if alike not in looked:
            looked.add(alike)
            begun.update(alike[1][1])
            decided.update(deciding(programme, day))
    return begun, decided


def likeness(programme: Programme, day: date) -> Tuple[object, Tuple[Block, ...]]:
    """What makes a day: its exception, and the blocks that begin on it."""
    special = special_of(programme, day)
    blocks = special.blocks if special else programme.blocks
    there = programme.only is None or programme.only(day)
    return special, tuple(block for block in blocks if there and block.days(day))


def deciding(programme: Programme, day: date) -> Set[object]:
    """The blocks that decide for a point at some moment of a day."""
    now, end, found = begins(day, time(0), programme.zone), begins(day + DAY, time(0), programme.zone), set()
    while now < end:
        spans, now = standing(programme, now)
        points: Set[str] = set()
        for span in spans:
            if not points.issuperset(span.values):
                found.add(span.of)
            points.update(span.values)
    return found
