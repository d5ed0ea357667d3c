"""Which catalogue a server has. The server tells its points; a file that has the same digest tells their units and notes too."""

import os
from typing import Callable, NamedTuple, Optional

from .._addresses import addresses_of
from .._client import Client
from .._keys import Key
from .._protocol import Refused, Unanswered, UnknownHost, UnknownOp, host_and_port, is_name
from . import _show, _toml
from ._show import Catalogue
from ._toml import Failure

# Where the unit's catalogue is.
DEFAULT = "/etc/bossd/plant.toml"
# What asks a server for its catalogue.
Ask = Callable[[], Catalogue]


class File(NamedTuple):
    """A catalogue's file, where there is one, and whether somebody named it; `why` it is passed over, where it can't be read."""
    catalogue: Optional[Catalogue]
    is_named: bool
    why: str = ""


class NoAnswer(Failure):
    """The server did not tell its points now. It may later."""


def file_of(name: Optional[str]) -> File:
    """The file of this name; without a name that of the unit, where it may be read. Failure for one that was named."""
    if name is not None:
        return File(_show.read_catalogue(name), True)
    if not os.access(DEFAULT, os.R_OK):
        return File(None, False)
    try:
        return File(_show.read_catalogue(DEFAULT), False)
    except Failure as error:
        return File(None, False, str(error))


def served(client: Client, server: str, file: Optional[Catalogue]) -> Optional[Catalogue]:
    """The server's catalogue: the file's where the digests agree, else what the server tells. None where it tells nothing, as one of before
    0.3.0. Unanswered."""
    try:
        if file is not None and client.version().digest == file.digest.hex():
            return file
        return _show.told_catalogue(server, client.points())
    except UnknownOp:
        return None


def is_none_here(name: Optional[str]) -> bool:
    """Whether a file that names no catalogue finds none on this machine either."""
    return name is None and not os.access(DEFAULT, os.R_OK)


def asking(server: str, patience: float, key: Optional[Key] = None, as_: Optional[str] = None) -> Ask:
    """Asks a server for what it tells of its points, over a connection that lasts no longer; `patience` is in seconds, `key` that of the process
    `as_`. NoAnswer; Failure for a server of before 0.3.0."""
    def ask() -> Catalogue:
        try:
            with Client(server, patience=patience, key=key, as_=as_) as client:
                return _show.told_catalogue(server, client.points())
        except UnknownOp:
            raise silent(server, "the key catalogue") from None
        except Refused as error:
            raise NoAnswer(f"{server}: refused: {error}") from error
        except (Unanswered, UnknownHost) as error:
            raise NoAnswer(f"{server} does not tell its points: {getattr(error, 'why', '') or error}") from error
    return ask


def process_in(path: str, default: str) -> str:
    """The process that a program's file names, whose key its questions show. The default where it names none, or is none, which is said later."""
    try:
        with open(path, encoding="utf-8") as file:
            tables = _toml.read(file.read())
    except (OSError, ValueError):
        return default
    name = default if isinstance(tables, _toml.Broken) else tables.get("process", default)
    return name if isinstance(name, str) and is_name(name) else default


def told(ask: Optional[Ask]) -> Catalogue:
    """What the server tells, for a file that names no catalogue. NoAnswer, Failure; also where there is no server to ask."""
    if ask is None:
        raise Failure(f"the server's catalogue: no {DEFAULT} may be read, and no SERVER is named that tells its points")
    return ask()


def is_local(server: str) -> bool:
    """Whether a server is on this machine, as the unit's catalogue is."""
    hosts = [host_and_port(one)[0] for one in addresses_of(server)]
    return all(host in ("localhost", "::1") or host.startswith("127.") for host in hosts)


def differs(file: Catalogue, told: Catalogue) -> str:
    """What to say where a file is not the server's catalogue."""
    return (f"{file.path} is not the catalogue that {told.path} serves (its digest is {told.digest.hex()[:16]}.., the file's "
            f"{file.digest.hex()[:16]}..): shown is what the server tells, without units and notes")


def silent(server: str, by: str = "--catalogue") -> Failure:
    """Where the server tells nothing and there is no file."""
    return Failure(f"{server} does not tell its points, as a bossd of before 0.3.0: name a copy of its catalogue by {by}")
