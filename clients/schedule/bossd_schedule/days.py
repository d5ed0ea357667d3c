"""Days, as they are written in a file."""

import re
from datetime import date, timedelta
from functools import lru_cache
from typing import Callable, Optional, Sequence, Tuple

Days = Callable[[date], bool]

DAY = timedelta(days=1)
WEEK = ("mon", "tue", "wed", "thu", "fri", "sat", "sun")
MONTHS = ("jan", "feb", "mar", "apr", "may", "jun", "jul", "aug", "sep", "oct", "nov", "dec")
RANKS = {"1st": 0, "2nd": 1, "3rd": 2, "4th": 3, "5th": 4, "last": -1}
DATE = r"(\*|\d{4})-(\d\d)-(\d\d)"
WANTED = "days are as mon-fri, sat sun, 2026-12-24, 2026-12-24/2027-01-01, *-12-24, *-10-01/*-04-30, easter+39, last mon may"
# Moments within two days of either end of what Python calls a date are none.
LEAST_YEAR, MOST_YEAR = 1970, 9998


def every_day(_: date) -> bool:
    return True


def any_of(texts: Sequence[str]) -> Days:
    """The days of any of the texts. ValueError as of `days_of`."""
    tests = [days_of(text) for text in texts]
    return lambda day: any(test(day) for test in tests)


def both_of(first: Days, second: Days) -> Days:
    """The days that both have."""
    return lambda day: first(day) and second(day)


def days_of(text: str) -> Days:
    """The days that a text names: "mon-fri sun", "2026-12-24", "2026-12-24/2027-01-01", "*-12-24", "*-10-01/*-04-30", "easter-2", "last
    mon may". ValueError where it names none, with what may stand there."""
    for form, make in FORMS:
        match = re.fullmatch(form, text, re.ASCII)
        if match:
            return make(*match.groups())
    raise ValueError(WANTED)


def is_weekdays(text: str) -> bool:
    """Whether these are days of the week."""
    return re.fullmatch(FORMS[0][0], text) is not None


def _weekdays(text: str) -> Days:
    chosen = set()
    for part in text.split():
        first, _, last = part.partition("-")
        start, count = WEEK.index(first), (WEEK.index(last or first) - WEEK.index(first)) % 7 + 1
        chosen |= {(start + step) % 7 for step in range(count)}
    return lambda day: day.weekday() in chosen


def _day(year: str, month: str, day: str) -> date:
    """A day of the file; a leap year stands for each year: *-02-29 is a day, though not every year's."""
    made = date(2024 if year == "*" else int(year), int(month), int(day))
    if not LEAST_YEAR <= made.year <= MOST_YEAR:
        raise ValueError(f"a year is {LEAST_YEAR} to {MOST_YEAR}")
    return made


def _dates(year: str, month: str, day: str, *rest: str) -> Days:
    last_year, last_month, last_day = rest if rest else (year, month, day)
    if (year == "*") != (last_year == "*"):
        raise ValueError("both ends of a span have a year, or neither has")
    first, last = _day(year, month, day), _day(last_year, last_month, last_day)
    if year != "*":
        if last < first:
            raise ValueError(f"{last} is before {first}")
        return lambda one: first <= one <= last
    low, high = (first.month, first.day), (last.month, last.day)
    if low <= high:
        return lambda one: low <= (one.month, one.day) <= high
    return lambda one: (one.month, one.day) >= low or (one.month, one.day) <= high


@lru_cache(maxsize=64)
def easter(year: int) -> date:
    """Easter Sunday of the western churches, by the rule that J.-M. Oudin gave for the Gregorian calendar."""
    golden, century = year % 19, year // 100
    moon = (century - century // 4 - (8 * century + 13) // 25 + 19 * golden + 15) % 30
    moon -= moon // 28 * (1 - 29 // (moon + 1) * ((21 - golden) // 11))
    weekday = (year + year // 4 + moon + 2 - century + century // 4) % 7
    shift = moon - weekday
    month = 3 + (shift + 40) // 44
    return date(year, month, shift + 28 - 31 * (month // 4))


def _easter(offset: Optional[str]) -> Days:
    shift = timedelta(days=int(offset or 0))

    def is_shifted(day: date) -> bool:
        # A shift of up to 999 days is of another year's Easter.
        return easter((day - shift).year) + shift == day
    return is_shifted


def _ranked(rank: str, weekday: str, month: str) -> Days:
    place, on, of = RANKS[rank], WEEK.index(weekday), MONTHS.index(month) + 1

    def is_ranked(day: date) -> bool:
        if (day.weekday(), day.month) != (on, of):
            return False
        return (day + 7 * DAY).month != of if place < 0 else (day.day - 1) // 7 == place
    return is_ranked


A_DAY, A_MONTH = "|".join(WEEK), "|".join(MONTHS)
FORMS: Sequence[Tuple[str, Callable[..., Days]]] = (
    (rf"((?:(?:{A_DAY})(?:-(?:{A_DAY}))?(?: +|$))+)", _weekdays),
    (DATE, _dates),
    (f"{DATE}/{DATE}", _dates),
    (r"easter([+-]\d{1,3})?", _easter),
    (rf"({'|'.join(RANKS)}) +({A_DAY}) +({A_MONTH})", _ranked),
)
