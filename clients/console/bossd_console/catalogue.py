"""The catalogue's points and a journal's bytes, as `bossctl` reads them: the one place that reaches into the client's own modules."""

from typing import Any, Dict

from bossd._protocol import Gathering, is_name
from bossd.ctl import _journal as journals
from bossd.ctl._following import Following, Reader
from bossd.ctl._served import differs, silent
from bossd.ctl._show import Catalogue, Point, held_until, is_urgent, level, now, read_catalogue, told_catalogue
from bossd.ctl._toml import Failure

__all__ = ["Catalogue", "Failure", "Following", "Gathering", "Point", "Reader", "described", "differs", "held_until", "is_name",
           "is_urgent", "journals", "level", "now", "read_catalogue", "silent", "told_catalogue"]


def described(point: Point) -> Dict[str, Any]:
    """What the catalogue says of a point, as JSON has it."""
    times = {"min_on": point.min_on, "min_off": point.min_off} if point.times() else {}
    return {
        "name": point.name, "driver": point.driver, "kind": point.kind, "min": point.least, "max": point.most, "default": point.default,
        "unit": point.unit, "note": point.note, **times,
    }
