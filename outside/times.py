"""Tries the program with a pump that has minimum times.

Tries the program with a pump that has minimum times, behind a Modbus TCP host that notes when each write comes: that both times are
kept, to within a pause of its driver, also by a default that comes back; that a pump which is held on is told to be on, and since when;
that a write at level 1, 3 or 5 goes through at once; that a want which is replaced while it is held is not written; that a held point
holds up no other; that a time begins with the first write of a value, also one that the device refused; that a restart forgets them, and
that a script does not guard.

    tools/times

It needs the program built (./bossd, or its path in BOSSD), and takes a minute. On a machine with much other work writes come later:
PATIENCE in the environment is how much later they may, in seconds (0.2)."""

import os
import subprocess
import sys
import tempfile
import time
from collections.abc import Callable
from typing import Self

import bossd
from outside import modbus, program
from outside.cases import Wrong, all_hold, heed_help, see

HOUR = 3_600_000
# The pump's minimum times, and how long its driver pauses, in seconds.
ON, OFF, PAUSE = 3.0, 2.0, 0.02
# By how much a write may come later than it has to, for what else the machine does.
PATIENCE = float(os.environ.get("PATIENCE", 0.2))
# By how much two writes may come closer than they were decided: the clock counts milliseconds, and the first may be longer under way.
EARLY = PATIENCE / 10
AT_ONCE = PAUSE + PATIENCE
CATALOGUE = f"""drivers = ["heat"]

[[point]]
name = "pump"
driver = "heat"
kind = "binary"
default = 0
min_on = {int(ON * 1000)}
min_off = {int(OFF * 1000)}

[[point]]
name = "valve"
driver = "heat"
kind = "analog"
min = 0
max = 100000
default = 0

[[point]]
name = "lamp"
driver = "heat"
kind = "binary"
default = 0
"""
PLAN = """[[driver]]
name = "heat"
host = "{}"

[[place]]
point = "pump"
unit = 1
coil = 0

[[place]]
point = "valve"
unit = 1
register = 0
per = 1000

[[place]]
point = "lamp"
unit = 1
coil = 1
"""
# The function that writes a coil.
COIL = 5


class Plant:
    """The program with the pump, its host, and an operator. It begins once each point was written its default."""

    def __init__(self, folder: str) -> None:
        self.host = modbus.Host()
        self._client: bossd.Client | None = None
        self.folder = tempfile.mkdtemp(dir=folder)
        plan, catalogue = self.write("plan.toml", PLAN.format(self.host.address)), self.write("catalogue.toml", CATALOGUE)
        self.server = program.Server(catalogue, os.path.join(self.folder, "journal"), plan=plan)

    def write(self, name: str, text: str) -> str:
        path = os.path.join(self.folder, name)
        with open(path, "w") as file:
            file.write(text)
        return path

    def __enter__(self) -> Self:
        try:
            self.server.start(stderr=subprocess.DEVNULL)
            self._client = bossd.Client(self.server.address, "operator")
            see(program.eventually(lambda: len(self.host.frames) >= 3), "not each point is written at the start")
            return self
        except BaseException:
            self.__exit__()
            raise

    def __exit__(self, *_: object) -> None:
        self.server.stop()
        self.host.stop()
        if self._client is not None:
            self._client.patience = 0
            self._client.close()

    @property
    def client(self) -> bossd.Client:
        """The operator."""
        if self._client is None:
            raise AssertionError("the plant was not begun")
        return self._client

    def writes(self, place: int = 0) -> list[tuple[float, bool]]:
        """The writes to a coil so far: when each came, and whether it is on."""
        return [(at, frame[10:] == b"\xff\0") for at, frame in self.host.frames if frame[7] == COIL and frame[8:10] == place.to_bytes(2, "big")]

    def set(self, value: int, priority: int = 8) -> None:
        """Has an operator set the pump."""
        self.client.submit([bossd.write("pump", value, priority=priority, lease=HOUR)], "keep")

    def free(self, priority: int) -> None:
        """Releases what the operator has at this priority."""
        self.client.cancel(self.client.array("pump").slots[priority].txn)

    def next(self, count: int, seconds: float) -> tuple[float, bool]:
        """When the next write of the pump after so many came, and its value; Wrong where none comes in so many seconds."""
        see(program.eventually(lambda: len(self.writes()) > count, seconds), f"no write {count + 1} of the pump within {seconds:.2f} s")
        return self.writes()[count]

    def see_held(self, value: int) -> None:
        """The pump is to have the value, and its device does not have it yet."""
        reading = self.client.read("pump")
        see((reading.value, reading.mark) == (value, "pending"), f"while it is held the pump is {reading}")

    def see_runs_on(self) -> None:
        """The pump is to stand, and the server tells that its device is on yet, and since when."""
        reading, (at, is_on) = self.client.read("pump"), self.writes()[-1]
        see((reading.value, is_on, reading.took) == (0, True, 1), f"a pump that runs on is {reading}")
        if reading.since is None:
            raise Wrong(f"a pump that runs on is {reading}")
        off = reading.since / 1000 - (time.time() - time.monotonic() + at)
        see(abs(off) <= PATIENCE, f"it is told to run since {off:.3f} s after it was written")

    def see_kept(self, value: int, least: float, what: str) -> float:
        """The pump was set to this value, and its write comes so many seconds after the one before: no sooner, and hardly later. What it
        took."""
        self.see_held(value)
        count = len(self.writes())
        last, before = self.writes()[-1]
        see(before != bool(value), f"{what}: the pump has it already")
        at, came = self.next(count, least + AT_ONCE)
        see(came == bool(value), f"{what}: the pump is written {int(came)}")
        took = at - last
        see(least - EARLY <= took <= least + AT_ONCE, f"{what}: it comes {took:.3f} s after the one before, for a time of {least} s")
        see(program.eventually(lambda: self.client.read("pump").mark == "settled"), f"{what}: the pump does not settle")
        return took

    def see_at_once(self, value: int, what: str, change: Callable[[], object]) -> float:
        """This change has the pump written this value at once. What it took."""
        count, began = len(self.writes()), time.monotonic()
        change()
        at, came = self.next(count, AT_ONCE)
        see(came == bool(value), f"{what}: the pump is written {int(came)}")
        see(at - began <= AT_ONCE, f"{what}: it comes after {at - began:.3f} s")
        return at - began

    def begin(self) -> None:
        """Waits until the pump is free, and sets it."""
        time.sleep(max(0.0, self.writes()[-1][0] + OFF + PAUSE - time.monotonic()))
        self.see_at_once(1, "on, when its time off is over", lambda: self.set(1))


# ---- what is tried

def try_times(folder: str) -> str:
    with Plant(folder) as plant:
        plant.set(1)
        off = plant.see_kept(1, OFF, "on after the start")
        plant.set(0)
        plant.see_runs_on()
        on = plant.see_kept(0, ON, "off")
        plant.free(8)
        plant.set(1, 16)
        again = plant.see_kept(1, OFF, "on again")
        see([is_on for _, is_on in plant.writes()] == [False, True, False, True], f"the pump was written {plant.writes()}")
        return f"off for {off:.3f} s and {again:.3f} s of {OFF:.0f}, on for {on:.3f} s of {ON:.0f}"


def try_default(folder: str) -> str:
    """A lease that ends: the default is held too."""
    with Plant(folder) as plant:
        plant.begin()
        plant.free(8)
        see(plant.client.read("pump").basis == "default", "the pump does not have its default")
        plant.see_runs_on()
        return f"the default comes {plant.see_kept(0, ON, 'the default'):.3f} s after the pump went on"


def try_safety(folder: str) -> str:
    """Levels 1 to 5 go through at once, level 7 does not."""
    with Plant(folder) as plant:
        plant.begin()
        took = [plant.see_at_once(value, f"level {priority}", lambda: plant.set(value, priority)) for priority, value in ((5, 0), (3, 1), (1, 0))]
        # Level 3 still holds it on.
        took.append(plant.see_at_once(1, "level 3 again", lambda: plant.free(1)))
        plant.free(5)
        plant.free(3)
        plant.set(0, 7)
        plant.see_kept(0, ON, "level 7")
        return f"levels 5, 3 and 1 within {max(took) * 1000:.0f} ms; level 7 is held"


def try_safety_overtakes(folder: str) -> str:
    """A want that is held goes through once a lease of level 3 wants the same."""
    with Plant(folder) as plant:
        plant.begin()
        plant.set(0)
        time.sleep(0.3)
        plant.see_held(0)
        see(len(plant.writes()) == 2, "a held want was written")
        return f"held at level 8, written {plant.see_at_once(0, 'level 3', lambda: plant.set(0, 3)) * 1000:.0f} ms after level 3 wants it too"


def try_replaced(folder: str) -> str:
    """A want that is replaced while it is held is not written."""
    with Plant(folder) as plant:
        plant.begin()
        count, began = len(plant.writes()), plant.writes()[-1][0]
        plant.set(0)
        time.sleep(1)
        plant.see_held(0)
        plant.set(1)
        see(program.eventually(lambda: plant.client.read("pump").mark == "settled", AT_ONCE), "a want of the value that the pump has is held")
        time.sleep(began + ON + 0.3 - time.monotonic())
        see(all(is_on for _, is_on in plant.writes()[count:]), f"0 was replaced, and written: {plant.writes()[count:]}")
        # The time counts from the first write of its run, and is over by now: a second later it would be from the last one.
        took = plant.see_at_once(0, "once the time is over", lambda: plant.set(0))
        return f"0 was not written; set again once the time was over it came within {took * 1000:.0f} ms"


def try_beside(folder: str) -> str:
    """While the pump is held, points without times are written at once, one as often as it is set."""
    with Plant(folder) as plant:
        plant.begin()
        plant.set(0)
        longest = 0.0
        for number in range(1, 11):
            began = time.monotonic()
            plant.client.submit([bossd.write("valve", number * 1000, lease=HOUR), bossd.write("lamp", number % 2, lease=HOUR)])
            see(program.eventually(lambda: all(plant.client.read(point).mark == "settled" for point in ("valve", "lamp")), AT_ONCE),
                "a point beside a held one does not settle")
            longest = max(longest, time.monotonic() - began)
        plant.see_kept(0, ON, "off, beside others")
        lamp = [is_on for _, is_on in plant.writes(1)]
        see(lamp == [False, *[True, False] * 5], f"a lamp without times was written {lamp}")
        return f"10 writes of two other points, each settled within {longest * 1000:.0f} ms"


def try_refused(folder: str) -> str:
    """A write that the device refuses counts too: the time of its value begins."""
    with Plant(folder) as plant:
        time.sleep(OFF + PAUSE)
        plant.host.behave = modbus.exception(4)
        plant.see_at_once(1, "on, which the device refuses", lambda: plant.set(1))
        see(program.eventually(lambda: plant.client.read("pump").mark == "failed"), "a refused write does not fail")
        plant.host.behave = modbus.echo
        plant.set(0)
        return f"off {plant.see_kept(0, ON, 'off after a refused on'):.3f} s after a refused on"


def try_restart(folder: str) -> str:
    """A restart forgets when the pump last changed."""
    with Plant(folder) as plant:
        plant.begin()
        plant.set(0)
        plant.see_held(0)
        count, began = len(plant.writes()), plant.writes()[-1][0]
        plant.server.kill()
        plant.server.start(stderr=subprocess.DEVNULL)
        at, is_on = plant.next(count, AT_ONCE)
        see(not is_on, "after a restart the pump is not written what it is to have")
        see(at - began < ON, f"after a restart the pump is written {at - began:.3f} s after it went on")
        return f"written {at - began:.3f} s after it went on, since a start forgets that"


def try_script(folder: str) -> str:
    """A script does not guard."""
    with tempfile.NamedTemporaryFile("w", dir=folder, suffix=".toml") as file:
        file.write(CATALOGUE)
        file.flush()
        lines = ('{"op":"attach","process":"a"}\n'
                 + "".join(f'{{"at":{at},"op":"submit","writes":[{{"point":"pump","value":{at % 2},"lease":60000}}]}}\n' for at in (1, 2, 3)))
        ran = subprocess.run([program.PROGRAM, "script", file.name, "-"], input=lines, capture_output=True, text=True, timeout=20)
    written = [line.split()[3] for line in ran.stdout.splitlines() if line.startswith("write heat pump")]
    see(written == ["0", "1", "0", "1"], f"a script writes {written}")
    return "a script does not guard"


def main() -> None:
    heed_help(__doc__)
    if sys.argv[1:]:
        sys.exit(f"times: no such words; {__doc__}")
    program.need_program()
    is_fine = all_hold([("both times", try_times), ("the default", try_default), ("levels 1 to 5", try_safety),
                        ("a held want that level 3 takes", try_safety_overtakes), ("a held want that is replaced", try_replaced),
                        ("beside others", try_beside), ("a write that is refused", try_refused), ("a restart", try_restart),
                        ("a script", try_script)], bossd.Refused)
    sys.exit(None if is_fine else "times: not all is as it has to be")


if __name__ == "__main__":
    main()
