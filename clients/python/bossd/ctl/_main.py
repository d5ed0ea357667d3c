"""The words of bossctl."""

import argparse
import os
import socket
import ssl
import sys
import textwrap
from typing import Callable, Optional, Sequence

from .. import overrides
from .._client import tls_context
from .._protocol import Busy, Refused, Unanswered, UnknownHost
from . import _commands, _elect, _evict, _feed, _field, _follow, _journal, _key, _served
from ._toml import Failure

SERVER = "127.0.0.1:7000"
FAULT, USAGE, NO_ANSWER, BROKEN = 1, 2, 3, 130

ABOUT = """Shows and sets what a building's bossd holds.

Each command asks a running server, but for journal and lint, which read files, field, which stands for devices, and feed and follow, which
keep a standby, and elect, which serves. Every connection takes one of the server's workers as long as it lasts."""

ENDS = """A priority is 1 to 16 but not 6, and the least number wins; 8 is Manual Operator. Lengths of time are written 30m, 90s, 1h30m, 250ms
or 2d. Values of analog points are in units, as 45 or 21.5.

It ends with 0; with 1 where something is wrong or was refused; with 2 for faulty words; with 3 where the server does not answer.

For example:
    bossctl points 'air.*'
    bossctl set air.damper 80 --for 30m --back 60,45 --step 5m
    bossctl lint /etc/bossd/plant.toml"""

Command = Callable[[argparse.Namespace], int]


class Paragraphs(argparse.HelpFormatter):
    """Fills each paragraph to the terminal's width, and leaves those that are indented as they are."""

    def _fill_text(self, text: str, width: int, indent: str) -> str:
        parts = text.split("\n\n")
        return "\n\n".join(part if "\n    " in part else textwrap.fill(" ".join(part.split()), width) for part in parts)


def at_every_place(parser: argparse.ArgumentParser, is_top: bool) -> None:
    """The options that may stand before a command and after it."""
    environment = os.environ

    def given(value: object) -> object:
        return value if is_top else argparse.SUPPRESS

    group = parser.add_argument_group("options of every command")
    group.add_argument("--server", metavar="HOST:PORT[,..]", default=given(environment.get("BOSSD_SERVER") or SERVER),
                       help=f"where the server listens (or BOSSD_SERVER in the environment; {SERVER}); several, with commas between them, where it"
                       " may be at any")
    group.add_argument("--catalogue", metavar="FILE", default=given(environment.get("BOSSD_CATALOGUE")),
                       help="a file with the server's catalogue (or BOSSD_CATALOGUE in the environment; else "
                       f"{_served.DEFAULT}, where it may be read): it has the units and notes of points, which the server does not keep. Without "
                       "one, or where it is another catalogue than the server's, bossctl goes by what the server tells")
    group.add_argument("--overrides", metavar="SOCKET", default=given(environment.get("BOSSD_OVERRIDES") or overrides.SOCKET),
                       help=f"where bossd-overrides is asked (or BOSSD_OVERRIDES in the environment; {overrides.SOCKET})")
    group.add_argument("--json", action="store_true", default=given(False), help="write JSON, for programs: values are whole numbers,"
                       " thousandths of the unit at analog points; moments are milliseconds since 1970")
    group.add_argument("--tls", metavar="FILE", default=given(environment.get("BOSSD_TLS")),
                       help="connect by TLS, to a host that this authority vouches for, in PEM (or BOSSD_TLS in the environment)")
    group.add_argument("--tls-certificate", metavar="FILE", default=given(environment.get("BOSSD_TLS_CERTIFICATE")),
                       help="with --tls, the certificate to show, in PEM (or BOSSD_TLS_CERTIFICATE in the environment)")
    group.add_argument("--tls-key", metavar="FILE", default=given(environment.get("BOSSD_TLS_KEY")),
                       help="its key, where that is not in the same file (or BOSSD_TLS_KEY in the environment)")
    group.add_argument("--key", metavar="FILE", default=given(environment.get("BOSSD_KEY")),
                       help="a file with the key of the process that bossctl is, where the server has keys (or BOSSD_KEY in the environment); nobody "
                       "but its owner may be able to read it")
    group.add_argument("--as", dest="own", metavar="NAME", default=given(None),
                       help="the name of the process that bossctl is for the server (or BOSSD_AS in the environment). Without it it asks as bossctl, and "
                       "sets points as the first of bossctl, bossctl-2, .. bossctl-8 that nobody has")
    group.add_argument("--patience", type=float, metavar="SECONDS", default=given(15.0),
                       help="how long to wait for the server (15): where all its workers are busy, it says so after ten seconds")


def add(commands: "argparse._SubParsersAction[argparse.ArgumentParser]", name: str, run: Command, help: str,
        more: str = "") -> argparse.ArgumentParser:
    text = f"{help[0].upper()}{help[1:]}." + (f"\n\n{more}" if more else "")
    parser = commands.add_parser(name, help=help, description=text, formatter_class=Paragraphs)
    parser.set_defaults(run=run)
    at_every_place(parser, is_top=False)
    return parser


def add_plain(commands: "argparse._SubParsersAction[argparse.ArgumentParser]", name: str, run: Callable[[Sequence[str]], int], help: str,
              more: str) -> argparse.ArgumentParser:
    """A command whose words are its own; `main` of the package runs it before this is read, unless they begin with an option."""
    parser = commands.add_parser(name, help=help, description=f"{help[0].upper()}{help[1:]}.\n\n{more}", formatter_class=Paragraphs)
    parser.set_defaults(run=lambda words: run(words.plain))
    parser.add_argument("plain", nargs=argparse.REMAINDER, help=argparse.SUPPRESS)
    return parser


def priority(text: str) -> int:
    if not text.isdigit() or not 1 <= int(text) <= 16 or int(text) == 6:
        raise argparse.ArgumentTypeError(f"{text} is no priority: 1 to 16, but not 6, which is kept for minimum on and off times")
    return int(text)


def count(text: str) -> int:
    if not text.isdigit():
        raise argparse.ArgumentTypeError(f"{text} is no number")
    return int(text)


def port(text: str) -> int:
    if not text.isdigit() or int(text) > 65_535:
        raise argparse.ArgumentTypeError(f"{text} is no port: 1 to 65535, or 0")
    return int(text)


def sets_a_point(parser: argparse.ArgumentParser) -> None:
    parser.add_argument("point", metavar="POINT", help="the point's name")
    parser.add_argument("value", metavar="VALUE", help="the value, in units at an analog point")
    parser.add_argument("--back", metavar="V,V,..", help="the reversion: up to 8 values that are played one after another when the lease ends,"
                        " unless another transaction took the slot")
    parser.add_argument("--policy", choices=("keep", "abort"), default="keep", help="what becomes of the lease where the device does not take"
                        " the value: it is kept, and the device is tried again (keep, for people), or it ends (abort, as a program's does by"
                        " default)")
    parser.add_argument("--step", metavar="TIME", type=_commands.length_of, default=60_000, help="how long each of these is held (1m)")


def with_a_priority(parser: argparse.ArgumentParser) -> None:
    parser.add_argument("--priority", type=priority, default=8, metavar="N", help="the priority (8, Manual Operator)")


def parser_of() -> argparse.ArgumentParser:
    parser = argparse.ArgumentParser(prog="bossctl", description=ABOUT, epilog=ENDS, formatter_class=Paragraphs)
    at_every_place(parser, is_top=True)
    commands = parser.add_subparsers(dest="command", metavar="COMMAND", required=True)

    points = add(commands, "points", _commands.points, "show points: value, where from, who holds it, how long yet, and the device's mark")
    points.add_argument("pattern", metavar="PATTERN", nargs="?", help="only points that fit it, with * ? and [ ]; or whose names contain it")
    points.add_argument("--held", action="store_true", help="only points that somebody holds, or that revert")

    point = add(commands, "point", _commands.point, "show the sixteen slots of a point, and what comes next",
                "The levels have the names of ASHRAE 135. The server does not say which reversion a lease was given before it begins.")
    point.add_argument("name", metavar="NAME", help="the point's name")

    one = add(commands, "set", _commands.set_point, "set a point for a while",
              "Stays until the time is over, since the server lets go of what a lost connection held. Ctrl-C releases the point before. With\n"
              "--detach it does not stay: the service bossd-overrides holds the point.")
    sets_a_point(one)
    one.add_argument("--for", dest="lease", metavar="TIME", type=_commands.length_of, help="for how long: at most 7d; with --detach for any time")
    one.add_argument("--detach", action="store_true", help="do not stay: bossd-overrides holds the point, until somebody releases it, or until"
                     " the time of --for is over")
    one.add_argument("--note", metavar="TEXT", help="with --detach, why it was set, for whoever finds it")
    with_a_priority(one)

    one = add(commands, "hold", _commands.hold_point, "set a point until Ctrl-C",
              "Holds it by a short lease that is renewed, so the server lets go soon after this program or its machine is gone.")
    sets_a_point(one)
    one.add_argument("--lease", metavar="TIME", type=_commands.length_of, default=30_000, help="the lease that is renewed (30s)")
    with_a_priority(one)

    one = add(commands, "overrides", _commands.overrides, "show overrides that stand by themselves: who set them, when, and why",
              "They were set by set --detach or from the operator's page, and the service bossd-overrides holds them. The oldest comes first.")
    one.add_argument("--ended", action="store_true", help="show those that ended lately, and why, instead")

    one = add(commands, "release", _commands.release, "release a slot of a point, whoever holds it",
              "Takes the slot by a transaction of its own and lets it go at once. Whoever held it is told that it was superseded, and its\n"
              "reversion is not played. A program that holds the point by a loop may take it again.")
    one.add_argument("point", metavar="POINT", help="the point's name")
    with_a_priority(one)

    one = add(commands, "evict", _evict.evict, "end all that a process holds: what a program left that is gone, or whose key was taken away",
              "Becomes the process for a moment, as whoever shows a key that is right for NAME may, or the administrator's of the name *, and whoever\n"
              "comes where the server has no keys. Each slot that the process holds is written over with the value that it has, and let go at once: so\n"
              "leases end, no reversion begins or goes on, and devices get what comes next and nothing in between. As with release, a slot that somebody\n"
              "else takes in just that moment is taken from him.\n\n"
              "Where the rules deny the process a write over a slot its lease is cancelled, and its reversion begins, or goes on: what is left, and until\n"
              "when, is shown, and the status is 1. So it is, and nothing is ended, where NAME is attached elsewhere: end its program first, or take its\n"
              "table out of the server's file of keys and restart the server.\n\n"
              "What NAME holds is seen before it is attached. Where that is nothing it is not: no name is spent that was never there.")
    one.add_argument("process", metavar="NAME", help="the name of the process; the key that is shown is that of this name, whatever BOSSD_AS says")
    one.add_argument("--dry-run", action="store_true", help="show what would be ended, and end nothing; whether NAME is attached elsewhere is not seen so")

    one = add(commands, "watch", _commands.watch, "show what a process is told, as it comes", "Goes on until Ctrl-C.")
    one.add_argument("process", metavar="PROCESS", help="the name of the process")
    one.add_argument("--from", dest="first", type=count, metavar="N", help="begin with this notice; without it with the last ten")

    one = add(commands, "processes", _commands.processes, "show processes, and what they hold",
              "The server tells of no process but those that hold something. The names of the others stand in its journal: with --journal,\n"
              f"or where {_journal.DEFAULT} may be read, as by root, they are shown too. Whether a process is connected is not known.")
    one.add_argument("--journal", metavar="FILE", help=f"the server's journal ({_journal.DEFAULT}, where it may be read)")

    one = add(commands, "transactions", _commands.transactions, "show transactions that hold something: whose, how far, and which points",
              "The server tells of a transaction by its number alone. The numbers of those that hold something are found in the slots of all\n"
              "points; those of others stand in the journal, which --done reads.")
    one.add_argument("--done", action="store_true", help="also those that are done and still known, by the journal")
    one.add_argument("--most", type=count, default=1_024, metavar="N", help="with --done, look at the last N of the journal (1024)")
    one.add_argument("--journal", metavar="FILE", help=f"the server's journal ({_journal.DEFAULT})")

    add(commands, "faults", _commands.faults, "show points whose devices did not take a value, or have not answered yet",
        "Ends with 1 where there is one that did not take it. Also shown is what the processes that hold these points were told of faults.")

    one = add(commands, "status", _commands.status, "show whether the server answers, how soon, whether workers are free, and what it serves",
              "Asks it something, and then over further connections, which take free workers for some thousandths of a second.")
    one.add_argument("--workers", type=count, default=4, metavar="N", help="look for so many free workers at most (4)")

    one = add(commands, "journal", _commands.journal, "show the events of a journal, one on a line",
              "Reads the files and asks no server. Of the two files FILE and FILE.b it reads the one in force: the kept state that it may begin\n"
              "with, and each event after that. Reading the files of a server that runs does no harm; as the last line it may miss what came\n"
              "meanwhile. Points have their names where the catalogue of the journal is the file of --catalogue, the unit's, or the copy that the\n"
              "unit keeps beside the journal.")
    one.add_argument("file", metavar="FILE", help="the journal's name")
    one.add_argument("--state", action="store_true", help="show the leases and reversions of the kept state too")
    one.add_argument("--from", dest="first", type=count, default=1, metavar="N", help="begin with this event")
    one.add_argument("--last", type=count, metavar="N", help="only the last N events")

    one = add(commands, "top", _commands.top, "show what is held on a screen that goes on",
              "Failed devices come first, then what ends first. q ends it.")
    one.add_argument("--every", type=float, default=1.0, metavar="SECONDS", help="how often to look (1)")
    one.add_argument("--count", type=count, metavar="N", help="end after N looks")

    one = add(commands, "key", _key.key, "make a key for a process, in a new file, and write the table by which the server knows it",
              "The key is random, and nobody else may read its file. The table goes into the server's file of keys, which has the key's digest\n"
              "and no key. A NAME that ends with * is for each process whose name begins so, and * alone for every one: an administrator's.")
    one.add_argument("holder", metavar="NAME", help="whose key it is")
    one.add_argument("--file", metavar="FILE", help="where the key is to be (NAME.key, in this folder)")

    one = add(commands, "lint", _commands.lint, "look through a catalogue, access rules, a plan of devices and keys, and name every mistake",
              "Each mistake has its line, its table, its key, what was found and what may stand there. Tables count from 0, rules and keys from 1, as in\n"
              "what the server prints. A key that nothing reads is a mistake where it looks like one that is missing. What is merely odd is named\n"
              "too, as passed over: other keys that nothing reads, percent where thousandths are meant, a register of 40001 and more, two points\n"
              "at one place, rules that no write comes to, patterns that fit no point, points that no rule is for, keys for names that no rule\n"
              "lets write, rules for names that nobody has a key for, and a key for all names. Which processes there are no file says, so none\n"
              "is looked for. It ends with 1 where there is a mistake, and with --strict also where something is passed over.\n\n"
              "RULES has tables [[rule]] with process, point, highest (1) and allow (true). PLAN has tables [[driver]] with name, host, speaks\n"
              "(modbus), wait, tries, check (0) and again (0), and [[place]] with point; for Modbus unit and one of coil and register; for BACnet\n"
              "bacnet, level, network and station; and with per (1), check and again. KEYS has tables [[key]] with process and sha256.")
    one.add_argument("file", metavar="CATALOGUE", help="the catalogue")
    one.add_argument("rules", metavar="RULES", nargs="?", help="access rules; - for none")
    one.add_argument("plan", metavar="PLAN", nargs="?", help="a plan of devices; - for none")
    one.add_argument("keys", metavar="KEYS", nargs="?", help="the digests of keys; - for none")
    one.add_argument("--strict", action="store_true", help="end with 1 also where something is passed over")

    one = add(commands, "field", _field.field, "serve the hosts of a plan on this machine, over Modbus TCP and BACnet/IP: a field to play with",
              "Shows each request as it comes: the moment, the point, its place, the value, and what was answered. Words that are typed\n"
              "turn a point's device, or make it or a whole host fail:\n\n" + _field.HELP + "\n\n"
              "Over Modbus it takes the functions 1 and 3 (read coils and registers), 5 and 6 (write one), 15 and 16 (write several), and answers\n"
              "every other one with exception 1; what names a place that the plan does not have is answered with exception 2. Over BACnet it takes\n"
              "ReadProperty and WriteProperty, with a priority array, and Who-Is. It goes on until quit or Ctrl-C.\n\n"
              "A plan whose hosts are at 127.0.0.1 is served as it is. For any other, --ports 1502 serves its hosts at 127.0.0.1:1502 and the\n"
              "ports after it, and writes a plan that says so, for bossd to be started with.")
    one.add_argument("plan", metavar="PLAN", help="the plan of devices")
    one.add_argument("--ports", type=port, metavar="FROM", help="serve the hosts at 127.0.0.1, at this port and those after it; 0 for free ones")
    one.add_argument("--to", metavar="FILE", help="where to write the plan with these hosts (its name with .local, in this folder)")

    one = add_plain(commands, "feed", _feed.feed, "write what a standby does not have yet of a journal that is being served",
                    "Copies both files of JOURNAL, and writes the feed of the copy above the number FROM. Nothing is written before a copy is whole, and\n"
                    "nothing where CATALOGUE does not have the digest DIGEST, if that is given. CATALOGUE alone has its digest written.\n"
                    "bossd-feed(8) says more.")
    one.usage = "bossctl feed CATALOGUE [JOURNAL FROM [DIGEST]]"

    one = add_plain(commands, "follow", _follow.follow, "keep a standby's journal behind one that is served elsewhere",
                    "Goes round each SECONDS, or once: COMMAND, which gets two words more, the number above which events are wanted and the digest of\n"
                    "CATALOGUE, writes a feed, and bossd takes it into JOURNAL. bossd-follow(8) says more.")
    one.usage = "bossctl follow CATALOGUE JOURNAL SECONDS|once COMMAND WORD.."

    one = add_plain(commands, "elect", _elect.elect, "serve while this machine is the elected one of several",
                    "Waits for the lock of etcd until no other machine serves NAME, then runs the command, which serves it, and watches it: it is stopped\n"
                    "while nobody tells whether the lock is still there, and killed once that is gone or the server hangs. bossd-elected(8) says more.")
    one.usage = "bossctl elect PROGRAM .. serve CATALOGUE etcd:HOST:PORT[,HOST:PORT..]/NAME ADDRESS WORKERS CONNECTIONS [RULES [PLAN [KEYS]]]"

    add(commands, "version", _commands.version, "show the version of bossctl")
    return parser


def main(arguments: Optional[Sequence[str]] = None) -> int:
    """Runs the command, and gives the status to end with."""
    words = parser_of().parse_args(arguments)
    for name in ("rules", "plan", "keys"):
        if getattr(words, name, None) == "-":
            setattr(words, name, None)
    try:
        words.context = context_of(words)
        status: int = words.run(words)
        sys.stdout.flush()
        return status
    except BrokenPipeError:
        # Whoever read the output has enough. Nothing more is written as Python ends.
        os.dup2(os.open(os.devnull, os.O_WRONLY), sys.stdout.fileno())
        return FAULT
    except KeyboardInterrupt:
        return BROKEN
    except (Refused, overrides.NotMade) as error:
        return say(f"refused: {error}", FAULT)
    except UnknownHost as error:
        return say(str(error), NO_ANSWER)
    except Unanswered as error:
        return say(no_answer(words.server, error), NO_ANSWER)
    except Failure as error:
        return say(str(error), FAULT)
    except ValueError as error:
        return say(str(error), USAGE)
    except OSError as error:
        return say(f"{words.server}: {error}", NO_ANSWER)


def context_of(words: argparse.Namespace) -> Optional[ssl.SSLContext]:
    """How to connect; None without TLS. Failure where a file is none, ValueError where one is missing."""
    if words.tls is None:
        if words.tls_certificate or words.tls_key:
            raise ValueError("--tls-certificate and --tls-key belong to --tls, which names the authority")
        return None
    if words.tls_key and not words.tls_certificate:
        raise ValueError("--tls-key belongs to --tls-certificate")
    try:
        return tls_context(words.tls, words.tls_certificate, words.tls_key)
    except OSError as error:
        names = ", ".join(filter(None, (words.tls, words.tls_certificate, words.tls_key)))
        raise Failure(f"{names}: no authority, certificate and key in PEM, or not to be read ({error.strerror or error})") from error


def say(text: str, status: int) -> int:
    print(f"bossctl: {text}", file=sys.stderr)
    return status


def no_answer(server: str, error: Unanswered) -> str:
    cause: Optional[BaseException] = error.__cause__
    if isinstance(error, Busy):
        return f"all workers of {server} are busy: give it more (WORKERS), or end connections that need not be open"
    if isinstance(cause, ConnectionRefusedError):
        return f"nobody listens at {server}: does bossd run? (systemctl status bossd; --server or BOSSD_SERVER says where it listens)"
    if isinstance(cause, socket.timeout):
        return f"{server} takes the connection and answers nothing: all its workers are busy, or it hangs"
    return f"{server} does not answer: {cause or error}"
