"""Tries the program with devices of a plan, over Modbus TCP, that behave and misbehave.

Tries the program with devices of a plan: over a real Modbus TCP server (pymodbus, in a process of its own, which is asked what it then
has), beside a silent driver, and with hosts that misbehave, one run each: the mark of the point, the line on the standard error, and that
the point settles once its host behaves.

    tools/field             all of these
    tools/field measure     how long a write takes from its request to its device, with 1, 16 and 256 drivers, and a driver of 256 points
                            after a restart
    tools/field measure N W the former alone, with N drivers, 1 to 256, and W clients that write all the time, 1 to N
    tools/field hosts       the hosts themselves, by a small client, without the program
    tools/field night N [CATALOGUE PLAN]
                            N troubles at random, over `bossctl field`: see outside/night.py. SEED in the environment plays one again

It needs the program built (./bossd, or its path in BOSSD), and for the first a Python with pymodbus (Debian: python3-pymodbus); where
none is found it says so and ends with 0. It installs nothing."""

import concurrent.futures
import json
import multiprocessing
import os
import re
import shutil
import socket
import subprocess
import sys
import tempfile
import threading
import time
from collections.abc import Callable, Iterable, Mapping, Sequence
from typing import Any, Self

import bossd
from outside import CLIENT, modbus, night
from outside.cases import Wrong, heed_help, see
from outside.program import EXAMPLES, PROGRAM, Server, eventually, free_port, listens, need_program, piped

# By driver, when the write of each word of its register began.
Begun = dict[str, dict[bytes, float]]

PLANT = os.path.join(EXAMPLES, "plant.toml")
MINUTE = 60_000
# How long a write may take with its answer, where a plan does not say, and when a write that failed is tried again, in seconds.
SILENCE, RETRY = 5.0, 5.0
# What the program may take beside that, on a busy machine.
SLACK = 3.0
# Within how many seconds points of a driver settle, whatever another driver's devices do.
SETTLED_WITHIN = 0.1
NO_ANSWER = "no answer within 5000 ms"
RESET = "connection reset by the host"
BROKEN_OFF = "the host ended the connection before a whole response"
NO_RESPONSE = "what came back is no response to what was asked"
ADDRESS_REFUSED = "refused with code 2, illegal data address"


# ---- files

def catalogue_text(drivers: Mapping[str, int]) -> str:
    """A catalogue of analog points, 0 to 100 %, default 20 %: so many for each driver, called DRIVER.0 and on."""
    text = f"drivers = {json.dumps(list(drivers))}\n"
    for driver, count in drivers.items():
        for place in range(count):
            text += (f'\n[[point]]\nname = "{driver}.{place}"\ndriver = "{driver}"\nkind = "analog"\nmin = 0\nmax = 100000\n'
                     "default = 20000\n")
    return text


def plan_text(hosts: Mapping[str, str], places: Mapping[str, Mapping[str, Any]]) -> str:
    """A plan: the host of each driver, and for each point its keys."""
    text = "" if places else "place = []\n"
    for driver, host in hosts.items():
        text += f'[[driver]]\nname = "{driver}"\nhost = "{host}"\n\n'
    for point, keys in places.items():
        text += f'[[place]]\npoint = "{point}"\n' + "".join(f"{key} = {value}\n" for key, value in keys.items()) + "\n"
    return text


def registers(drivers: Mapping[str, int], per: int = 1000) -> dict[str, dict[str, Any]]:
    """Each point of these drivers in the register of its number, in unit 1."""
    return {f"{driver}.{place}": {"unit": 1, "register": place, "per": per} for driver, count in drivers.items() for place in range(count)}


# ---- the program

class Program(Server):
    """The program with a plan, and what it writes on the standard error."""

    def __init__(self, folder: str, catalogue: str, plan: str, workers: int = 4, journal: str = "-") -> None:
        self.files = tempfile.mkdtemp(dir=folder)
        plan_file = self.write("plan.toml", plan)
        if "\n" in catalogue:
            catalogue = self.write("catalogue.toml", catalogue)
        super().__init__(catalogue, journal, workers, plan=plan_file)
        self.lines: list[tuple[float, str]] = []

    def write(self, name: str, text: str) -> str:
        path = os.path.join(self.files, name)
        with open(path, "w") as file:
            file.write(text)
        return path

    def launch(self, **more: Any) -> None:
        super().launch(stderr=subprocess.PIPE, text=True, **more)
        threading.Thread(target=self._read, args=(self.process.stderr,), daemon=True).start()

    def _read(self, stream: Iterable[str]) -> None:
        for line in stream:
            self.lines.append((time.monotonic(), line.rstrip("\n")))

    def listened(self) -> float:
        """When it said that it listens."""
        return next(at for at, line in self.lines if "listening" in line)

    def said(self) -> list[str]:
        """What it said of devices."""
        return [line for _, line in self.lines if " unit " in line or re.match(r"bossd: \S+: (reached again|connection |no )", line)]

    def saw(self, line: str, times: int = 1) -> bool:
        """Whether it says this line of a device, so often in all."""
        return eventually(lambda: self.said().count(line) >= times, SLACK) and self.said().count(line) == times

    def client(self, process: str | None = None) -> bossd.Client:
        return bossd.Client(self.address, process)


def mark_of(client: bossd.Client, point: str) -> str:
    return client.read(point).mark


def settles(client: bossd.Client, point: str, seconds: float) -> bool:
    return eventually(lambda: mark_of(client, point) == "settled", seconds)


def takes_a_plan() -> bool:
    """Whether the program has the words RULES and PLAN."""
    with tempfile.TemporaryDirectory() as folder:
        plan = os.path.join(folder, "plan.toml")
        with open(plan, "w") as file:
            file.write("driver = 0\n")
        words = [PROGRAM, "serve", PLANT, "-", "127.0.0.1:0", "1", "1", "-", plan]
        return subprocess.run(words, capture_output=True, text=True).stdout == "plan missing driver\n"


# ---- hosts that misbehave

class Case:
    """A host, what a small client sees of it, the mark of the program's point, its line, and whether the mark comes after the longest
    silence. `of_host` is the line where it is the host's and not a point's. `connections` is how many the host sees until a later write is settled too; None where that is not counted. `address` is how
    the plan has it, where that is not the host's own; a host at which nobody listens does not come back."""

    def __init__(self, name: str, host: Callable[[], modbus.Host], seen: str, mark: str, line: str | None = None, of_host: str | None = None, is_slow: bool | None = False, connections: int | None = 2, address: str | None = None) -> None:
        self.name, self.host, self.seen, self.mark, self.line, self.of_host = name, host, seen, mark, line, of_host
        self.is_slow, self.connections, self.address = is_slow, connections, address

    def comes_back(self) -> bool:
        return self.host is not stopped


def behaving(behave: modbus.Behave, **more: Any) -> Callable[[], modbus.Host]:
    return lambda: modbus.Host(behave, **more)


def stopped() -> modbus.Host:
    host = modbus.Host()
    host.stop()
    return host


CASES = [
    Case("a host as it should be", behaving(modbus.echo), "echo", "settled", connections=1),
    Case("exception 2", behaving(modbus.exception(2)), "exception 2", "failed", ADDRESS_REFUSED, connections=1),
    Case("busy", behaving(modbus.exception(6)), "exception 6", "failed", "refused with code 6, server device busy", connections=1),
    Case("silent", behaving(modbus.silent), "silent", "failed", NO_ANSWER, is_slow=True),
    Case("half a response, then silent", behaving(modbus.half), "silent", "failed", NO_ANSWER, is_slow=True),
    Case("half a response and an end", behaving(modbus.half_and_end), "ended", "failed", BROKEN_OFF),
    Case("an end in place of a response", behaving(modbus.end), "ended", "failed", BROKEN_OFF),
    Case("the header of an exception and an end", behaving(modbus.header_of_exception_and_end), "ended", "failed", BROKEN_OFF),
    Case("a reset", behaving(modbus.reset), "reset", "failed", RESET),
    Case("another transaction", behaving(modbus.changed(1)), "wrong", "failed", NO_RESPONSE),
    Case("another unit", behaving(modbus.changed(6)), "wrong", "failed", NO_RESPONSE),
    Case("another value", behaving(modbus.changed(11)), "wrong", "failed", NO_RESPONSE),
    Case("the function plus 127", behaving(modbus.exception(2, 0x7f)), "wrong", "failed", NO_RESPONSE),
    Case("a web server", behaving(modbus.web_server), "wrong", "failed", NO_RESPONSE),
    Case("a byte each 0.1 s", behaving(modbus.byte_by_byte(0.1)), "echo", "settled", connections=1),
    # The time is for the whole response, and not anew for each byte.
    Case("a byte each 0.9 s", behaving(modbus.byte_by_byte(0.9)), "echo", "failed", NO_ANSWER, is_slow=True),
    # A connection with bytes that nobody asked for is not used again.
    Case("three bytes after the echo", behaving(modbus.echo_and_more), "echo", "settled", connections=2),
    Case("connects that are not answered", behaving(modbus.echo, accepts=False), "silent", "failed", of_host="no answer in time", is_slow=True, connections=None),
    Case("a refused connect", stopped, "refused", "failed", of_host="connection refused"),
    Case("a host by its name", behaving(modbus.echo), "echo", "settled", connections=1, address="localhost:{}"),
    Case("a name that nobody has", stopped, "refused", "failed", of_host="no address is known for this name", is_slow=None, address="nobody.invalid:502"),
    Case("a host without a port", stopped, "refused", "failed", of_host="no name of a host", address="127.0.0.1"),
]


def try_case(case: Case, folder: str) -> str:
    """One run: what came, in words."""
    host, good = case.host(), modbus.Host()
    try:
        seen = modbus.came_of(host.address)
        see(seen == case.seen, f"the host itself is not as it should be: a small client sees '{seen}'")
        host.forget()
        address = (case.address or host.address).format(host.port)
        drivers = {"bad": 1, "good": 1}
        plan = plan_text({"bad": address, "good": good.address}, registers(drivers))
        with Program(folder, catalogue_text(drivers), plan) as program, program.client("tester") as client:
            return see_case(case, host, address, program, client)
    finally:
        host.stop()
        good.stop()


def see_case(case: Case, host: modbus.Host, address: str, program: Program, client: bossd.Client) -> str:
    see(settles(client, "good.0", SLACK), "another driver's point does not settle")
    longest = 60.0 if case.is_slow is None else SILENCE * case.is_slow + SLACK
    marks: list[str] = []

    def is_known() -> bool:
        marks.append(mark_of(client, "bad.0"))
        return marks[-1] != "pending"

    see(eventually(is_known, longest), f"the mark is still pending after {longest} s")
    took = time.monotonic() - (host.frames[0][0] if host.frames else program.listened())
    see(marks[-1] == case.mark, f"the mark is {marks[-1]}")
    see(not case.is_slow or took > SILENCE - 0.5, f"it failed after {took:.2f} s alone")
    line = f"bossd: {address}: {case.of_host}" if case.of_host else f"bossd: {address} unit 1 register 0: {case.line}"
    if case.line or case.of_host:
        see(program.saw(line), f"on the standard error stands {program.said()}")
    else:
        see(program.said() == [], f"on the standard error stands {program.said()}")
    told = f"{case.mark} after {took:.2f} s"
    return f"{told}; {see_mended(case, host, address, program, client)}" if case.comes_back() else told


def see_mended(case: Case, host: modbus.Host, address: str, program: Program, client: bossd.Client) -> str:
    """The host behaves from now on."""
    if case.mark == "failed":
        if host.waiting:
            host.accept()
        host.behave = modbus.echo
        began = time.monotonic()
        see(settles(client, "bad.0", 2 * RETRY + SILENCE + SLACK), "it does not settle once its host behaves")
        took = f"settled {time.monotonic() - began:.1f} s after its host behaves"
        again = f"bossd: {address}: reached again" if case.of_host else f"bossd: {address} unit 1 register 0: taken again"
        see(program.saw(again), f"on the standard error stands {program.said()}")
    else:
        took = "settled again"
    client.submit([bossd.write("bad.0", 45_900, lease=MINUTE)])
    see(settles(client, "bad.0", 2 * SLACK), "a later write does not settle")
    see(host.frames[-1][1][7:] == bytes.fromhex("06 0000 002d"), f"the host was sent {host.frames[-1][1].hex()}")
    see(case.connections in (None, host.connections), f"there were {host.connections} connections in place of {case.connections}")
    return took


def try_wait(folder: str) -> str:
    """A silent driver whose plan says `wait = 500`: its point fails after half a second, with a line that says so."""
    host = modbus.Host(modbus.silent)
    drivers = {"quick": 1}
    plan = plan_text({"quick": host.address}, registers(drivers)).replace("\n\n[[place]]", "\nwait = 500\n\n[[place]]", 1)
    try:
        with Program(folder, catalogue_text(drivers), plan) as program, program.client("tester") as client:
            see(eventually(lambda: mark_of(client, "quick.0") == "failed", SLACK), "it does not fail")
            took = time.monotonic() - host.frames[0][0]
            see(0.45 < took < 0.5 + SLACK, f"it failed after {took:.2f} s")
            line = f"bossd: {host.address} unit 1 register 0: no answer within 500 ms"
            see(program.saw(line), f"on the standard error stands {program.said()}")
            return f"failed after {took:.2f} s"
    finally:
        host.stop()


def try_idle(folder: str) -> str:
    """A host that ends each connection which was idle for a second: no write fails for it."""
    host = modbus.Host(idle=1.0)
    drivers = {"idle": 1}
    try:
        with Program(folder, catalogue_text(drivers), plan_text({"idle": host.address}, registers(drivers))) as program, \
                program.client("tester") as client:
            see(settles(client, "idle.0", SLACK), "the first write does not settle")
            for value in (30_000, 40_000, 50_000):
                time.sleep(1.5)
                client.submit([bossd.write("idle.0", value, lease=MINUTE)], "keep")
                see(settles(client, "idle.0", SLACK), f"{value} does not settle")
                see(host.frames[-1][1][10:] == (value // 1000).to_bytes(2, "big"), f"the host was sent {host.frames[-1][1].hex()}")
            faults = [notice for notice in client.notices().list if notice.kind == "fault"]
            see((faults, program.said()) == ([], []), f"there were faults: {faults}, {program.said()}")
            see((len(host.frames), host.connections) == (4, 4), f"{len(host.frames)} frames came over {host.connections} connections")
            return "4 writes over 4 connections, none failed"
    finally:
        host.stop()


def try_beside_silent(folder: str) -> str:
    """A silent driver of four points beside a good one: for twelve seconds each point of the good one settles within 100 ms. Where the
    machine is so busy that some take longer without a silent driver too, within a second, which is far below the longest silence."""
    count, worst = settled_beside(folder, modbus.silent)
    if worst <= SETTLED_WITHIN:
        return f"{count} writes of the good driver, each settled within {worst * 1000:.0f} ms"
    _, without = settled_beside(folder, modbus.echo)
    told = f"of {count} writes one settled after {worst * 1000:.0f} ms, without the silent driver after {without * 1000:.0f} ms"
    see(without > SETTLED_WITHIN and worst < 1.0, told)
    return f"{told}: a busy machine, with a load of {os.getloadavg()[0]:.1f}"


def settled_beside(folder: str, behave: modbus.Behave) -> tuple[int, float]:
    """Writes a good driver's points for twelve seconds beside another driver: how many writes there were, and the longest until one was
    settled, in seconds."""
    other, good = modbus.Host(behave), modbus.Host()
    drivers = {"other": 4, "good": 4}
    try:
        plan = plan_text({"other": other.address, "good": good.address}, registers(drivers))
        with Program(folder, catalogue_text(drivers), plan) as program, program.client("tester") as client:
            see(all(settles(client, f"good.{place}", SLACK) for place in range(4)), "a good driver's points do not settle")
            worst, count, until = 0.0, 0, time.monotonic() + 12
            while time.monotonic() < until:
                worst = max(worst, settled_after(client, f"good.{count % 4}", 20_000 + 1000 * (count % 50)))
                count += 1
                time.sleep(0.02)
            see(len(other.frames) >= 2 and bool(program.said()) == (behave is modbus.silent), "the other driver was not tried")
            return count, worst
    finally:
        other.stop()
        good.stop()


def settled_after(client: bossd.Client, point: str, value: int) -> float:
    """In how many seconds a write settles, from its answer on."""
    client.submit([bossd.write(point, value, lease=MINUTE)])
    began = time.monotonic()
    while mark_of(client, point) != "settled":
        see(time.monotonic() - began < SLACK, f"{point} does not settle")
    return time.monotonic() - began


def try_many_behind_a_dead_host(folder: str) -> str:
    """Of many points of a host that does not answer connects only one waits; the others fail at once."""
    host = modbus.Host(accepts=False)
    drivers = {"dead": 8}
    try:
        with Program(folder, catalogue_text(drivers), plan_text({"dead": host.address}, registers(drivers))) as program, program.client() as client:
            began = time.monotonic()
            points = [f"dead.{place}" for place in range(8)]
            see(eventually(lambda: all(mark_of(client, point) == "failed" for point in points), SILENCE + SLACK), "not all points failed")
            return f"8 points failed {time.monotonic() - began:.1f} s after the start"
    finally:
        host.stop()


def of_units(dead: int) -> modbus.Behave:
    """A gateway's host: each unit echoes but this one, which is silent."""
    def answer(connection: socket.socket, frame: bytes) -> bool:
        return frame[6] == dead or modbus.echo(connection, frame)
    return answer


def try_dead_unit(folder: str) -> str:
    """One silent unit of many behind one host, with `wait = 500`: it holds up the twenty others for half a second at each try, and is tried
    less and less often: 4, 8 and 16 seconds after it was silent, so three times in 20 s. It is told once."""
    host = modbus.Host(of_units(2))
    drivers = {"many": 21}
    places = {point: {**keys, "unit": 2 if point == "many.0" else 1} for point, keys in registers(drivers).items()}
    plan = plan_text({"many": host.address}, places).replace("\n\n[[place]]", "\nwait = 500\n\n[[place]]", 1)
    try:
        with Program(folder, catalogue_text(drivers), plan) as program, program.client("tester") as client:
            return see_dead_unit(host, program, client)
    finally:
        host.stop()


def see_dead_unit(host: modbus.Host, program: Program, client: bossd.Client) -> str:
    """That of `try_dead_unit`, once the program runs."""
    see(eventually(lambda: mark_of(client, "many.0") == "failed", SLACK), "the dead unit's point does not fail")
    see(all(settles(client, f"many.{place}", SLACK) for place in range(1, 21)), "the points of a live unit do not settle")
    began, worst, count = host.frames[0][0], 0.0, 0
    while time.monotonic() < began + 20:
        worst = max(worst, settled_after(client, f"many.{1 + count % 20}", 20_000 + 1000 * (count % 50)))
        count += 1
        time.sleep(0.02)
    see(worst < 1.0, f"of {count} writes of the live unit one settled after {worst * 1000:.0f} ms")
    tries = [at - began for at, frame in host.frames if frame[6] == 2]
    see(len(tries) == 3 and tries[1] > 4 and tries[2] - tries[1] > 8, f"the dead unit was tried after {tries} s")
    line = f"bossd: {host.address} unit 2 register 0: no answer within 500 ms"
    see(program.saw(line), f"on the standard error stands {program.said()}")
    return f"{count} writes of the others, each settled within {worst * 1000:.0f} ms; tried after {', '.join(f'{at:.1f}' for at in tries)} s"


def try_reports(folder: str) -> str:
    """A point that fails again and again is reported once."""
    host = modbus.Host(modbus.exception(2))
    drivers = {"bad": 1}
    try:
        with Program(folder, catalogue_text(drivers), plan_text({"bad": host.address}, registers(drivers))) as program:
            see(eventually(lambda: len(host.frames) >= 3, 2 * RETRY + SLACK), "it is not tried again")
            gap = host.frames[1][0] - host.frames[0][0]
            # Moments are whole milliseconds, of a clock that may be drawn by a hundredth.
            see(RETRY * 0.99 - 0.002 <= gap < RETRY + SLACK, f"it is tried again after {gap:.3f} s")
            see(program.said() == [f"bossd: {host.address} unit 1 register 0: {ADDRESS_REFUSED}"], f"on the standard error stands {program.said()}")
            return f"3 tries, {gap:.2f} s between two, one line"
    finally:
        host.stop()


# ---- plans that are refused

def refused_plans() -> list[tuple[str, str]]:
    """Plans for the small plant, and the line of each."""
    head = '[[driver]]\nname = "light"\nhost = "192.0.2.20:502"\n'
    hall, office = '[[place]]\npoint = "hall.lamp"\nunit = 1\ncoil = 0\n', '[[place]]\npoint = "office.lamp"\nunit = 1\ncoil = 1\n'
    air = '[[driver]]\nname = "air"\nhost = "192.0.2.10:502"\n'
    damper = '[[place]]\npoint = "air.damper"\nunit = 1\nregister = 0\n'
    return [
        (head + hall + office + "#" * 1_048_576, f"too-long {len(head + hall + office) + 1_048_576}"),
        ("driver = [\n", "not-toml"),
        (hall, "missing driver"),
        (head, "missing place"),
        ('[driver]\nname = "light"\n' + hall, "missing driver"),
        ("place = []\n" + head + head, "bad-driver 1"),
        ("place = []\n" + head.replace("light", "roof"), "bad-driver 0"),
        ("place = []\n" + head.replace("192.0.2.20:502", ""), "bad-driver 0"),
        ("place = []\n" + head.replace("192.0.2.20:502", "h" * 256), "bad-driver 0"),
        (head + hall + hall.replace("hall", "roof"), "bad-place 1"),
        (head + hall + hall, "bad-place 1"),
        (head + hall.replace("unit = 1", "unit = 256") + office, "bad-place 0"),
        (head + hall.replace("coil = 0", "coil = 65536") + office, "bad-place 0"),
        (head + hall + 'type = "u16"\n' + office, "bad-place 0"),
        (head + hall + "function = 6\n" + office, "bad-place 0"),
        (head + "wait = 49\n" + hall + office, "bad-driver 0"),
        (head + "wait = 5001\n" + hall + office, "bad-driver 0"),
        (air + damper + 'per = 1000\ntype = "f64"\n', "bad-place 0"),
        (air + damper + 'per = 1000\nfirst = "low"\n', "bad-place 0"),
        (air + damper + 'type = "f32"\nfirst = "big"\n', "bad-place 0"),
        (air + damper + 'type = "f32"\nround = "down"\n', "bad-place 0"),
        (air + damper + 'type = "f32"\nfunction = 6\n', "bad-place 0"),
        (air + damper.replace("register = 0", "register = 65535") + 'type = "u32"\n', "bad-place 0"),
        (air + damper + "per = 1000\ntimes = 0\n", "bad-place 0"),
        (air + damper + "per = 1000\noffset = -1\n", "bad-place 0"),
        (air + damper + "per = 10000000000\noffset = 1000000000\n", "bad-place 0"),
        (air + damper + 'per = 1000\nround = "up"\n', "bad-place 0"),
        (head + hall + "register = 0\n" + office, "bad-place 0"),
        (head + hall + "per = 0\n" + office, "bad-place 0"),
        (head + hall + office + damper + "per = 1000\n", "bad-place 2"),
        ("place = []\n" + air, "no-place air.damper"),
        (air + damper, "bad-place 0"),
        (air + damper + "per = 1000\n", "no-place air.heating"),
        (head + office, "no-place hall.lamp"),
    ]


def try_refused_plans(folder: str) -> str:
    """Each gives its line and status 17, listens nowhere and makes no journal; bossctl lint finds a mistake in each."""
    plans = refused_plans()
    for plan, line in plans:
        files = tempfile.mkdtemp(dir=folder)
        path, journal = os.path.join(files, "plan.toml"), os.path.join(files, "journal")
        with open(path, "w") as file:
            file.write(plan)
        ran = subprocess.run([PROGRAM, "serve", PLANT, journal, "127.0.0.1:0", "1", "1", "-", path], capture_output=True, text=True, timeout=60)
        see((ran.stdout, ran.returncode) == (f"plan {line}\n", 17), f"in place of 'plan {line}' {ran.stdout!r} and status {ran.returncode}")
        see("listening" not in ran.stderr and not os.path.exists(journal), f"{line}: it went on: {ran.stderr}")
        lint = subprocess.run([sys.executable, "-m", "bossd.ctl", "lint", PLANT, "-", path], capture_output=True, text=True,
                              env={**os.environ, "PYTHONPATH": CLIENT})
        see(lint.returncode == 1, f"bossctl lint finds nothing wrong in the plan of '{line}'")
    return f"{len(plans)} plans, each with its line and status 17"


# ---- a real Modbus TCP server

PYTHONS = [sys.executable, "/usr/bin/python3", *(str(path) for path in map(shutil.which, ["python3", "python"]) if path)]
PEER = """
import asyncio, json, sys, threading
from pymodbus.datastore import ModbusSequentialDataBlock, ModbusServerContext, ModbusSlaveContext
from pymodbus.server import StartAsyncTcpServer

KINDS = {"coils": 1, "registers": 3}
unit = ModbusSlaveContext(co=ModbusSequentialDataBlock(0, [0] * 100), hr=ModbusSequentialDataBlock(0, [0] * 100), zero_mode=True)
context = ModbusServerContext(slaves={1: unit}, single=False)

def answer():
    for line in sys.stdin:
        kind, address, count = line.split()
        print(json.dumps([int(it) for it in unit.getValues(KINDS[kind], int(address), int(count))]), flush=True)

threading.Thread(target=answer, daemon=True).start()
asyncio.run(StartAsyncTcpServer(context=context, address=("127.0.0.1", int(sys.argv[1])), allow_reuse_address=True))
"""


def python_with_pymodbus() -> tuple[str, str] | None:
    """A Python that has pymodbus, and its version; None where there is none."""
    for python in dict.fromkeys(PYTHONS):
        found = subprocess.run([python, "-c", "import pymodbus; print(pymodbus.__version__)"], capture_output=True, text=True)
        if found.returncode == 0:
            return python, found.stdout.strip()
    return None


class Peer:
    """A server of pymodbus with unit 1, whose coils and registers 0 to 99 are there. It is asked itself what stands in them."""

    def __init__(self, python: str) -> None:
        self.python, self.port = python, free_port()
        self.address = f"127.0.0.1:{self.port}"

    def __enter__(self) -> Self:
        self.start()
        return self

    def __exit__(self, *_: object) -> None:
        self.end()

    def start(self) -> None:
        self.process = subprocess.Popen([self.python, "-c", PEER, str(self.port)], stdin=subprocess.PIPE, stdout=subprocess.PIPE,
                                        stderr=subprocess.DEVNULL, text=True)
        see(eventually(lambda: listens(self.port), 20), "pymodbus does not listen")

    def end(self) -> None:
        self.process.kill()
        self.process.communicate()

    def values(self, kind: str, address: int, count: int) -> list[int]:
        asked = piped(self.process.stdin)
        asked.write(f"{kind} {address} {count}\n")
        asked.flush()
        told: list[int] = json.loads(piped(self.process.stdout).readline())
        return told


AIR = {"air.damper": {"unit": 1, "register": 0, "per": 1000}, "air.heating": {"unit": 1, "register": 1, "per": 1000},
       "air.cooling": {"unit": 1, "register": 2, "per": 100}, "air.fan": {"unit": 1, "register": 3}}
LIGHT = {"hall.lamp": {"unit": 1, "coil": 0}, "office.lamp": {"unit": 1, "coil": 19}}


def settled(client: bossd.Client, *points: str) -> None:
    see(all(settles(client, point, 2 * RETRY + SLACK) for point in points), f"not settled: {[it for it in points if mark_of(client, it) != 'settled']}")


def faults_of(client: bossd.Client) -> list[bossd.Notice]:
    return [notice for notice in client.notices(most=64).list if notice.kind == "fault"]


def try_written_and_read_back(python: str, folder: str) -> str:
    """What the server itself then has is what was written, at the start and later."""
    with Peer(python) as peer, Program(folder, PLANT, plan_text({"air": peer.address, "light": peer.address}, {**AIR, **LIGHT})) as program, \
            program.client("tester") as client:
        settled(client, *AIR, *LIGHT)
        see(peer.values("registers", 0, 4) == [20, 0, 0, 1], f"at the start the registers have {peer.values('registers', 0, 4)}")
        see(set(peer.values("coils", 0, 100)) == {0}, "at the start a coil is on")
        writes = {"air.damper": 45_900, "air.cooling": 33_333, "air.fan": 3, "office.lamp": 1}
        client.submit([bossd.write(point, value, lease=MINUTE) for point, value in writes.items()])
        settled(client, *writes)
        see(peer.values("registers", 0, 4) == [45, 0, 333, 3], f"then they have {peer.values('registers', 0, 4)}")
        coils = [place for place, value in enumerate(peer.values("coils", 0, 100)) if value]
        see(coils == [19], f"then the coils {coils} are on")
        client.submit([bossd.write("office.lamp", 0, lease=MINUTE, priority=8)])
        settled(client, "office.lamp")
        see(set(peer.values("coils", 0, 100)) == {0}, "a lamp stays on")
        see(program.said() == [], f"on the standard error stands {program.said()}")
        return "registers and coils as they were to be, at the start and after a transaction of four points"


# Of each form and order a point, with its place, a value of it, and what then has to stand in its registers.
FORMS: dict[str, tuple[dict[str, Any], int, list[int]]] = {
    "u16.single": ({"register": 0, "per": 1000}, 45_900, [45]),
    "u16.multiple": ({"register": 1, "per": 1000, "function": 16, "round": '"nearest"'}, 45_900, [46]),
    "i16": ({"register": 2, "type": '"i16"', "per": 100, "round": '"nearest"'}, -21_500, [65_321]),
    "u32.high": ({"register": 10, "type": '"u32"'}, 4_000_000_001, [61_035, 10_241]),
    "u32.low": ({"register": 12, "type": '"u32"', "first": '"low"'}, 4_000_000_001, [10_241, 61_035]),
    "i32.high": ({"register": 14, "type": '"i32"'}, -100_000, [65_534, 31_072]),
    "i32.low": ({"register": 16, "type": '"i32"', "first": '"low"'}, -100_000, [31_072, 65_534]),
    "f32.high": ({"register": 20, "type": '"f32"', "per": 1000}, 21_550, [0x41ac, 0x6666]),
    "f32.low": ({"register": 22, "type": '"f32"', "per": 1000, "first": '"low"'}, 21_550, [0x6666, 0x41ac]),
    # 21.5 °C are 70.7 °F
    "f32.scaled": ({"register": 24, "type": '"f32"', "times": 9, "per": 5000, "offset": 32}, 21_500, [0x428d, 0x6666]),
}
# What mbpoll shows of some of them: its type, whether -B (the high half first), the register, and the text.
POLLED = [("4", False, 0, "45"), ("4:int", True, 14, "-100000"), ("4:int", False, 16, "-100000"), ("4:float", True, 20, "21.55"),
          ("4:float", False, 22, "21.55"), ("4:float", True, 24, "70.7")]
LAMPS: dict[str, tuple[dict[str, Any], int, list[int]]] = {"lamp.multiple": ({"coil": 30, "function": 15}, 1, [1]), "lamp.register": ({"register": 31}, 1, [1])}


def forms_catalogue() -> str:
    text = 'drivers = ["forms"]\n'
    for name in FORMS:
        least = -200_000 if name[0] in "if" else 0
        text += f'\n[[point]]\nname = "{name}"\ndriver = "forms"\nkind = "analog"\nmin = {least}\nmax = {4_100_000_000 if name[:3] == "u32" else 60_000}\ndefault = 0\n'
    for name in LAMPS:
        text += f'\n[[point]]\nname = "{name}"\ndriver = "forms"\nkind = "binary"\ndefault = 0\n'
    return text


class Capture:
    """What tshark sees of a port of this machine, where it is there and may capture."""

    def __init__(self, folder: str, port: int) -> None:
        self.port, self.path = port, os.path.join(tempfile.mkdtemp(dir=folder), "modbus.pcap")
        self.process: subprocess.Popen[str] | None = None

    def __enter__(self) -> Self:
        if shutil.which("tshark"):
            words = ["tshark", "-q", "-i", "lo", "-f", f"tcp port {self.port}", "-w", self.path]
            self.process = process = subprocess.Popen(words, stdout=subprocess.DEVNULL, stderr=subprocess.PIPE, text=True)
            eventually(lambda: process.poll() is not None or os.path.exists(self.path), 20)
            time.sleep(1)
        return self

    def __exit__(self, *_: object) -> None:
        self.end()

    def end(self) -> None:
        if self.process is not None and self.process.poll() is None:
            time.sleep(1)
            self.process.terminate()
            self.process.communicate(timeout=20)

    def frames(self) -> list[list[str]] | None:
        """The unit, the function, the address, how many and the registers of each frame, none of them malformed; None where nothing was
        captured."""
        if self.process is None or not os.path.exists(self.path):
            return None
        fields = ["_ws.malformed", "mbtcp.unit_id", "modbus.func_code", "modbus.reference_num", "modbus.word_cnt", "modbus.regval_uint16"]
        words = ["tshark", "-r", self.path, "-o", f"mbtcp.tcp.port:{self.port}", "-Y", "mbtcp", "-T", "fields", "-E", "separator=;"]
        told = subprocess.run(words + [word for field in fields for word in ("-e", field)], capture_output=True, text=True, check=True)
        return [line.split(";") for line in told.stdout.splitlines()] or None


def polled(port: int) -> str:
    """What mbpoll reads, where it is there: how much was as it has to be."""
    if not shutil.which("mbpoll"):
        return "no mbpoll here"
    for kind, is_high, register, text in POLLED:
        words = ["mbpoll", "-m", "tcp", "-p", str(port), "-a", "1", "-0", "-r", str(register), "-t", kind, "-1", *(["-B"] if is_high else []), "127.0.0.1"]
        told = subprocess.run(words, capture_output=True, text=True).stdout
        see(f"[{register}]: \t{text}" in told, f"mbpoll reads {told!r} in place of {text}")
    return f"mbpoll reads {len(POLLED)} of them"


def shown_by_tshark(capture: Capture) -> str:
    frames = capture.frames()
    if frames is None:
        return "no tshark here that may capture"
    see(not any(it[0] for it in frames), "tshark calls a frame malformed")
    for name, (place, _, words) in {**FORMS, **LAMPS}.items():
        if len(words) == 2:
            wanted = ["", "1", "16", str(place["register"]), "2", ",".join(map(str, words))]
            see(wanted in frames, f"tshark has no frame {wanted} of {name}: {frames}")
    return f"tshark {len(frames)} frames, none malformed"


def try_forms(python: str, folder: str) -> str:
    """Each form in each order, and each function, as the server itself has it, as mbpoll reads it, and as tshark names the frames."""
    points = {**FORMS, **LAMPS}
    with Peer(python) as peer, Capture(folder, peer.port) as capture:
        plan = plan_text({"forms": peer.address}, {name: {"unit": 1, **place} for name, (place, _, _) in points.items()})
        with Program(folder, forms_catalogue(), plan) as program, program.client("tester") as client:
            settled(client, *points)
            client.submit([bossd.write(name, value, lease=MINUTE) for name, (_, value, _) in points.items()])
            settled(client, *points)
            for name, (place, _, words) in points.items():
                kind, address = ("coils", place["coil"]) if "coil" in place else ("registers", place["register"])
                has = peer.values(kind, address, len(words))
                see(has == words, f"{name}: {has} in place of {words}")
            read = polled(peer.port)
            see(program.said() == [], f"on the standard error stands {program.said()}")
        capture.end()
        return f"{len(points)} points as they were to be; {read}; {shown_by_tshark(capture)}"


def try_exception(python: str, folder: str) -> str:
    """A register that the server does not have: its owner is sent a fault, and under abort the transaction's leases end."""
    air = {**AIR, "air.fan": {"unit": 1, "register": 60_000}}
    with Peer(python) as peer, Program(folder, PLANT, plan_text({"air": peer.address}, air)) as program, program.client("tester") as client:
        settled(client, "air.damper", "air.heating", "air.cooling")
        see(eventually(lambda: mark_of(client, "air.fan") == "failed", SLACK), "a register that is not there is taken")
        see(program.saw(f"bossd: {peer.address} unit 1 register 60000: {ADDRESS_REFUSED}"), f"on the standard error stands {program.said()}")
        client.submit([bossd.write("air.damper", 70_000, lease=MINUTE, revert=[(30_000, MINUTE)]), bossd.write("air.fan", 2, lease=MINUTE)])
        see(eventually(lambda: len(faults_of(client)) == 1, SLACK), "no notice of the fault")
        ended = {(it.point, it.cause) for it in client.notices(most=64).list if it.kind == "ended"}
        see(ended == {("air.damper", "fault"), ("air.fan", "fault")}, f"under abort there ended {ended}")
        settled(client, "air.damper")
        see(peer.values("registers", 0, 1) == [30], f"after the abort the damper has {peer.values('registers', 0, 1)}, not its reversion")
        client.submit([bossd.write("air.heating", 55_000, lease=MINUTE), bossd.write("air.fan", 3, lease=MINUTE)], "keep")
        see(eventually(lambda: len(faults_of(client)) == 2, SLACK), "no notice of the second fault")
        settled(client, "air.heating")
        see(peer.values("registers", 1, 1) == [55], "a point beside it was not written")
        see(client.read("air.heating").basis == "lease", "under keep a lease ended")
        return "failed with its line; under abort both leases ended and the reversion was written; under keep nothing ended"


def try_ended_and_back(python: str, folder: str) -> str:
    """A server that ends and comes back."""
    with Peer(python) as peer, Program(folder, PLANT, plan_text({"air": peer.address}, AIR)) as program, program.client("tester") as client:
        settled(client, *AIR)
        peer.end()
        client.submit([bossd.write("air.damper", 60_000, lease=10 * MINUTE)], "keep")
        see(eventually(lambda: mark_of(client, "air.damper") == "failed", SLACK), "the mark of a server that ended is not failed")
        see(len(faults_of(client)) == 1, "no notice of the fault")
        see(program.saw(f"bossd: {peer.address}: connection refused"), f"on the standard error stands {program.said()}")
        peer.start()
        began = time.monotonic()
        settled(client, "air.damper")
        took = time.monotonic() - began
        see(took < 10, f"it settles {took:.1f} s after the server came back")
        see(program.saw(f"bossd: {peer.address}: reached again"), f"on the standard error stands {program.said()}")
        see(peer.values("registers", 0, 1) == [60], "the server that came back does not have the value")
        # Nothing is read: what a server lost that is anew comes back with the next value alone.
        see(peer.values("registers", 3, 1) == [0] and mark_of(client, "air.fan") == "settled", "a point without a new value was written anew")
        # It ends and comes back while nothing is written: the next write is taken, over a new connection.
        peer.end()
        peer.start()
        client.submit([bossd.write("air.damper", 80_000, lease=10 * MINUTE, priority=8)], "keep")
        settled(client, "air.damper")
        see((len(faults_of(client)), peer.values("registers", 0, 1)) == (1, [80]), "a write after a restart of the server failed")
        return f"failed, and settled {took:.1f} s after it came back; a restart between two writes fails none"


def try_restart(python: str, folder: str) -> str:
    """After a restart of the program each point is written anew, and leases go on."""
    journal = os.path.join(tempfile.mkdtemp(dir=folder), "journal")
    with Peer(python) as peer, Program(folder, PLANT, plan_text({"air": peer.address}, AIR), journal=journal) as program:
        with program.client("tester") as client:
            client.submit([bossd.write("air.damper", 60_000, lease=10 * MINUTE)])
            settled(client, *AIR)
            # Connections that are lost end leases; a program that is killed does not.
            program.kill()
        peer.end()
        peer.start()
        see(peer.values("registers", 0, 4) == [0, 0, 0, 0], "a server begun anew has values")
        program.start()
        with program.client() as client:
            settled(client, *AIR)
            see(peer.values("registers", 0, 4) == [60, 0, 0, 1], f"after a restart the registers have {peer.values('registers', 0, 4)}")
        return "what the server had lost was written anew, the lease's value too"


def try_missing_unit(python: str, folder: str) -> str:
    """A unit that the server does not have."""
    air = {point: {**keys, "unit": 7} if point == "air.fan" else keys for point, keys in AIR.items()}
    with Peer(python) as peer:
        seen = modbus.came_of(peer.address, bytes.fromhex("0001 0000 0006 07 06 0003 0001"))
        known = {"silent": NO_ANSWER, "exception 11": "refused with code 11, gateway target device failed to respond", "exception 2": ADDRESS_REFUSED}
        see(seen in known, f"pymodbus answers '{seen}' for a unit that it does not have")
        with Program(folder, PLANT, plan_text({"air": peer.address}, air)) as program, program.client("tester") as client:
            settled(client, "air.damper")
            see(eventually(lambda: mark_of(client, "air.fan") == "failed", SILENCE + SLACK), "a unit that is not there took a value")
            see(program.saw(f"bossd: {peer.address} unit 7 register 3: {known[seen]}"), f"on the standard error stands {program.said()}")
            client.submit([bossd.write("air.damper", 50_000, lease=MINUTE)])
            settled(client, "air.damper")
            see(peer.values("registers", 0, 1) == [50], "a point beside it was not written")
    return f"pymodbus: {seen}; failed, and the others were written"


# ---- measurements

# How many drivers there are, and how many clients that write.
MEASURED = ((1, 1), (16, 16), (256, 1), (256, 16))
MOST_DRIVERS = 256


def hundredths(values: Iterable[float]) -> tuple[float, float]:
    """The 50th and the 99th hundredth."""
    ordered = sorted(values)
    return ordered[len(ordered) // 2], ordered[min(len(ordered) - 1, len(ordered) * 99 // 100)]


def serve_hosts(pipe: Any, count: int) -> None:
    """Hosts in a process of their own, so that their moments do not wait for what the clients do: sends where they listen, and at the
    end the frames of each."""
    hosts = [modbus.Host() for _ in range(count)]
    pipe.send([host.address for host in hosts])
    pipe.recv()
    pipe.send([host.frames for host in hosts])


def write_times(folder: str, count: int, writers: int, rounds: int = 300) -> list[float]:
    """Milliseconds from a submit's line to its frame at the host, with so many drivers, and so many clients that write all the time, each
    to its share of the drivers in turn."""
    near, far = multiprocessing.Pipe()
    process = multiprocessing.Process(target=serve_hosts, args=(far, count), daemon=True)
    process.start()
    drivers = {f"d{place}": 1 for place in range(count)}
    plan = plan_text(dict(zip(drivers, near.recv())), registers(drivers, per=10))
    begun: Begun = {name: {} for name in drivers}
    shares = [list(drivers)[first::writers] for first in range(writers)]
    with Program(folder, catalogue_text(drivers), plan, workers=max(32, writers)) as program:
        with concurrent.futures.ThreadPoolExecutor(max_workers=writers) as pool:
            list(pool.map(lambda share: write_rounds(program, share, rounds, begun), shares))
        near.send("end")
        came = near.recv()
    process.join()
    times = [(at - moments[frame[10:]]) * 1000 for moments, frames in zip(begun.values(), came) for at, frame in frames if frame[10:] in moments]
    see(len(times) == rounds * len(shares), f"{len(times)} frames came of {rounds * len(shares)}")
    return times


def write_rounds(program: Program, names: Sequence[str], rounds: int, begun: Begun) -> None:
    """Writes points of these drivers in turn, each time when the device of the last one has its value, and notes when each began."""
    with program.client(names[0]) as client:
        for name in names:
            settled(client, f"{name}.0")
        for number in range(rounds):
            # Each value is another word in the register.
            name, word = names[number % len(names)], 3000 + number
            begun[name][word.to_bytes(2, "big")] = time.monotonic()
            client.submit([bossd.write(f"{name}.0", word * 10, lease=MINUTE)])
            while mark_of(client, f"{name}.0") != "settled":
                time.sleep(0.001)


def plain_times(writers: int = 1, rounds: int = 300) -> list[float]:
    """Milliseconds from when a small client sends a frame until it is at the host, with so many of both: what no program can be below."""
    near, far = multiprocessing.Pipe()
    process = multiprocessing.Process(target=serve_hosts, args=(far, writers), daemon=True)
    process.start()
    with concurrent.futures.ThreadPoolExecutor(max_workers=writers) as pool:
        begun = list(pool.map(lambda address: plain_rounds(address, rounds), near.recv()))
    near.send("end")
    came = near.recv()
    process.join()
    return [(at - moment) * 1000 for moments, frames in zip(begun, came) for moment, (at, _) in zip(moments, frames)]


def plain_rounds(address: str, rounds: int) -> list[float]:
    """Sends a frame again and again, each a moment after the answer to the last one, and tells when each began."""
    begun = list[float]()
    with modbus.connected(address) as connection:
        for _ in range(rounds):
            begun.append(time.monotonic())
            connection.sendall(modbus.REGISTER_2)
            modbus.receive(connection, modbus.FRAME)
            time.sleep(0.002)
    return begun


def late(delay: float) -> modbus.Behave:
    """An echo after so many milliseconds."""
    def answer(connection: socket.socket, frame: bytes) -> bool:
        time.sleep(delay / 1000)
        return modbus.echo(connection, frame)
    return answer


def plain_restart(delay: float, count: int = 256) -> float:
    """Seconds in which a small client writes so many registers, one after another, to such a host."""
    host = modbus.Host(late(delay))
    began = time.monotonic()
    with modbus.connected(host.address) as connection:
        for _ in range(count):
            connection.sendall(modbus.REGISTER_2)
            modbus.receive(connection, modbus.FRAME)
    host.stop()
    return time.monotonic() - began


def restart_time(folder: str, delay: float, count: int = 256) -> float:
    """Seconds from when a server listens until all points of a driver are settled, where its host answers after so many milliseconds."""
    host = modbus.Host(late(delay))
    drivers = {"many": count}
    journal = os.path.join(tempfile.mkdtemp(dir=folder), "journal")
    requests = [{"op": "read", "point": f"many.{place}"} for place in range(count)]
    try:
        with Program(folder, catalogue_text(drivers), plan_text({"many": host.address}, registers(drivers)), journal=journal) as program:
            for attempt in range(2):
                if attempt:
                    program.start()
                with program.client() as client:
                    see(eventually(lambda: all(not isinstance(it, bossd.Refused) and it["mark"] == "settled" for it in client.ask_all(requests)), 120), "not all points settle")
                    took = time.monotonic() - program.listened()
                frames = len(host.frames)
                program.kill()
                program.lines.clear()
                host.forget()
                see(frames == count, f"{frames} frames came in place of {count}")
            return took
    finally:
        host.stop()


def measure_writes(folder: str, count: int, writers: int) -> None:
    middle, last = hundredths(write_times(folder, count, writers))
    print(f"{count} driver{'s' if count > 1 else ''}, {writers} written at a time: from a submit's line to the frame at the host {middle:.2f} ms,"
          f" 99 of 100 within {last:.2f} ms", flush=True)
    middle, last = hundredths(plain_times(writers))
    print(f"small clients alone, {writers} at a time: from a write to the frame at the host {middle:.2f} ms, 99 of 100 within {last:.2f} ms;"
          f" load {os.getloadavg()[0]:.1f}", flush=True)


def measure(folder: str) -> None:
    for count, writers in MEASURED:
        measure_writes(folder, count, writers)
    for delay in (1, 20):
        print(f"256 points of a driver after a restart, a host that answers after {delay} ms: settled after {restart_time(folder, delay):.2f} s;"
              f" a small client alone: {plain_restart(delay):.2f} s", flush=True)
    print(f"load {os.getloadavg()[0]:.1f} on {os.cpu_count()} processors")


# ---- all of it

def try_hosts() -> None:
    """The hosts themselves, as a small client sees them."""
    for case in CASES:
        host = case.host()
        seen = modbus.came_of(host.address)
        host.stop()
        see(seen == case.seen, f"{case.name}: a small client sees '{seen}' and not '{case.seen}'")
        print(f"{case.name}: {seen}", flush=True)


def run(name: str, tried: Callable[..., object], *given: object) -> tuple[bool, str]:
    """What came of a try, and whether it was as it has to be."""
    try:
        return True, f"{name}: {tried(*given)}"
    except (Wrong, AssertionError, OSError, bossd.Refused, bossd.Unanswered) as wrong:
        return False, f"{name}: {type(wrong).__name__}: {wrong}"


def all_tries(folder: str, python: str) -> tuple[list[tuple[Any, ...]], list[tuple[Any, ...]]]:
    """Those that may run at the same time, and those that may not."""
    aside: list[tuple[Any, ...]] = [(case.name, try_case, case, folder) for case in CASES]
    aside += [("a silent host that is waited for half a second", try_wait, folder), ("a host that ends idle connections", try_idle, folder), ("many points of a dead host", try_many_behind_a_dead_host, folder),
              ("a point that fails again and again", try_reports, folder)]
    alone: list[tuple[Any, ...]] = [("plans that are refused", try_refused_plans, folder), ("pymodbus, read back by itself", try_written_and_read_back, python, folder),
             ("pymodbus, each form", try_forms, python, folder),
             ("pymodbus, an exception", try_exception, python, folder), ("pymodbus, ended and back", try_ended_and_back, python, folder),
             ("pymodbus, and the program restarted", try_restart, python, folder), ("pymodbus, a missing unit", try_missing_unit, python, folder),
             ("a silent driver beside a good one", try_beside_silent, folder), ("one silent unit of many", try_dead_unit, folder)]
    return aside, alone


def try_all(folder: str, python: str) -> bool:
    is_fine = True
    aside, alone = all_tries(folder, python)
    with concurrent.futures.ThreadPoolExecutor(max_workers=8) as pool:
        for future in [pool.submit(run, *one) for one in aside]:
            is_right, text = future.result()
            print(text, flush=True)
            is_fine &= is_right
    for one in alone:
        is_right, text = run(*one)
        print(text, flush=True)
        is_fine &= is_right
    return is_fine


def main() -> None:
    heed_help(__doc__)
    try:
        play(sys.argv[1:])
    except Wrong as wrong:
        sys.exit(f"field: {wrong}")


def play(words: list[str]) -> None:
    if words == ["hosts"]:
        return try_hosts()
    if words[:1] == ["night"] and len(words) in (2, 4) and words[1].isdigit() and int(words[1]):
        need_program()
        return night.run(int(words[1]), words[2:])
    of_some = words[:1] == ["measure"] and len(words) == 3 and all(word.isdigit() for word in words[1:])
    of_some = of_some and 1 <= int(words[2]) <= int(words[1]) <= MOST_DRIVERS
    if words not in ([], ["measure"]) and not of_some:
        sys.exit(f"field: no such words; {__doc__}")
    need_program()
    if not takes_a_plan():
        sys.exit("field: this program takes no plan")
    with tempfile.TemporaryDirectory() as folder:
        if words == ["measure"]:
            return measure(folder)
        if of_some:
            return measure_writes(folder, int(words[1]), int(words[2]))
        found = python_with_pymodbus()
        if found is None:
            print("field: no Python here has pymodbus (Debian: python3-pymodbus), so nothing was tried")
            return None
        print(f"field: pymodbus {found[1]} of {found[0]}", flush=True)
        if not try_all(folder, found[0]):
            sys.exit("field: not all is as it has to be")
    print("field: each as it has to be")
    return None


if __name__ == "__main__":
    main()
