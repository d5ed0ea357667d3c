"""Speaks to a building's `bossd`. For Python 3.9 and later, over nothing but the standard library.

    import bossd

    with bossd.Client("127.0.0.1:7000", "purge") as client:
        damper = bossd.write("air.damper", bossd.thousandths(100), priority=9, lease=bossd.milliseconds(minutes=1))
        with client.hold([damper]) as held:
            held.wait(3600)

`bossd.aio` is the same for programs that use asyncio. Both take `tls=`, where TLS stands before a server of another machine, and `key=`, as
`key=bossd.key_in("purge.key")`, where a server knows processes by keys; without keys it is passed over.

Units. A value is a whole number: thousandths of the unit at an analog point (45000 is 45 %), 0 or 1 at a binary point, a state from 1
on at a multi-state one. `thousandths` and `units` convert. A moment is milliseconds since 1970 by the server's clock, a length of
time is milliseconds; `milliseconds` converts. A priority is 1 to 16 but not 6; the least number wins.

Errors. A request that is refused raises a `Refused`: one class for each refusal, whose fields are attributes. One that is no request
at all is not sent, and raises a `Malformed` that names the key. A request for which no answer came raises `Unanswered`, after
`patience` seconds of connecting anew and asking again, or `Busy`, which is one too, where all the server's workers had a connection.
`submit`, `renew` and `cancel` carry numbers, so asking again makes them once.
A process that the server has lost its connection to has lost its live leases; the answer to a request that was asked again tells what
was done at first, and `status` tells what still stands. A write that the server's access rules do not let the process make raises
`Denied`, and is not asked again. A key that the server does not take raises `WrongKey`; no error, and no line of the log, has a key in
it. An address that is none raises ValueError, and one whose host does not exist `UnknownHost`.
"""

from ._client import Client, Held, Watch, connect, connected, tls_context, watch
from ._keys import Key, KeyRefused, key_in
from ._protocol import (
    LONGEST_LINE, PARTING, PAUSE, PULSE, REFUSALS, SILENCE, Accepted, Already, Answer, BadLease, BadPriority, BadReversion, Busy, Denied,
    Ended, Malformed, NoMemory, NotAttached, Notice, Notices, NotInTransaction, NotYours, OutOfRange, Over, Point, Points, Reading,
    Refused, Request, SamePoint, Slot, Slots, Spent, Stale, Status, Stopped, Taken, TooLong, TooManyProcesses, Unanswered, UnknownHost,
    UnknownOp, UnknownPoint, UnknownTransaction, Version, WrongKey, answer_of, check, line_of, milliseconds, notice_of, notices_of, point_of,
    reading_of, renewal, slots_of, status_of, thousandths, units, version_of, write,
)

__version__ = "0.3.0"

__all__ = [
    "Accepted", "Already", "Answer", "BadLease", "BadPriority", "BadReversion", "Busy", "Client", "Denied", "Ended", "Held", "Key",
    "KeyRefused", "LONGEST_LINE", "Malformed", "NoMemory", "NotAttached", "NotInTransaction", "NotYours", "Notice", "Notices",
    "OutOfRange", "Over", "PARTING", "PAUSE", "PULSE", "Point", "Points", "REFUSALS", "Reading", "Refused", "Request", "SILENCE",
    "SamePoint", "Slot", "Slots", "Spent", "Stale", "Status", "Stopped", "Taken", "TooLong", "TooManyProcesses", "Unanswered",
    "UnknownHost", "UnknownOp", "UnknownPoint", "UnknownTransaction", "Version", "Watch", "WrongKey", "answer_of", "check", "connect",
    "connected", "key_in", "line_of", "milliseconds", "notice_of", "notices_of", "point_of", "reading_of", "renewal", "slots_of",
    "status_of", "thousandths", "tls_context", "units", "version_of", "watch", "write",
]
