"""What tools that try case by case share: what is seen, a loop over cases, and --help."""

import os
import subprocess
import sys
import tempfile
from typing import Callable, Optional, Sequence, Tuple, Type

Case = Tuple[str, Callable[[str], object]]


class Wrong(Exception):
    """What was seen is not what has to be."""


def see(holds: object, what: str) -> None:
    """Wrong unless it holds."""
    if not holds:
        raise Wrong(what)


# What ends a case, and no other one.
FAULTS: Tuple[Type[Exception], ...] = (Wrong, AssertionError, OSError, ValueError, subprocess.TimeoutExpired)


def all_hold(cases: Sequence[Case], *faults: Type[Exception]) -> bool:
    """Tries each case in one folder, which is removed then, and prints what came of it; whether all were as they have to be. `faults` end a
    case beside FAULTS."""
    is_fine = True
    with tempfile.TemporaryDirectory() as folder:
        for name, tried in cases:
            try:
                print(f"{name}: {tried(folder)}", flush=True)
            except (*FAULTS, *faults) as wrong:
                print(f"{name}: {type(wrong).__name__}: {wrong}; a load of {os.getloadavg()[0]:.1f}", flush=True)
                is_fine = False
    return is_fine


def heed_help(doc: Optional[str]) -> None:
    """Prints what a tool says of itself, and ends it, where that is asked for."""
    if {"-h", "--help"} & set(sys.argv[1:]):
        print(doc)
        sys.exit()
