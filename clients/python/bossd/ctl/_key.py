"""Keys at a terminal: one that is made, and the one that bossctl shows."""

import argparse
import json
import os
import sys
from typing import Optional

from .._keys import KeyRefused, Source, digest_of, is_key, keep_key, key_in, new_key
from ._lint import A_PATTERN, is_pattern
from ._live import NAMES
from ._toml import Failure

TABLE = """[[key]]
process = "{}"
sha256 = "{}"
"""


def key(words: argparse.Namespace) -> int:
    """Makes a key in a new file, and writes the table by which the server knows it. Failure, ValueError."""
    if not is_pattern(words.holder):
        raise ValueError(f"{words.holder} is no process: {A_PATTERN}")
    if words.file is None and words.holder.endswith("*"):
        raise ValueError(f"{words.holder} is for several names: say by --file where its key is to be")
    path = words.file or f"{words.holder}.key"
    made = new_key()
    try:
        keep_key(path, made)
    except FileExistsError:
        raise Failure(f"{path} is there already, and is left as it is: a key is written into a new file alone") from None
    except OSError as error:
        raise Failure(f"{path}: {error.strerror or error}") from error
    if words.json:
        print(json.dumps({"process": words.holder, "sha256": digest_of(made), "file": path}), flush=True)
        return 0
    print(TABLE.format(words.holder, digest_of(made)), end="", flush=True)
    print(f"bossctl: {path} has the key: bring it to {words.holder}, and the table above into the server's file of keys", file=sys.stderr)
    return 0


def shown(words: argparse.Namespace) -> Optional[Source]:
    """What gives the key that bossctl shows; None without one. Failure where its file is not taken."""
    if words.key is None:
        return None
    if is_key(words.key) and not os.path.exists(words.key):
        raise Failure("--key wants the name of a file that has the key. It was given a key itself, which others of this machine can see: make another one")
    return taken(words.key)


def taken(path: str, may_be_empty: bool = False) -> Source:
    """What gives the key of this file. Failure where it is not taken."""
    try:
        return key_in(path, may_be_empty=may_be_empty)
    except KeyRefused as error:
        raise Failure(str(error)) from error
    except OSError as error:
        raise Failure(f"{path}: {error.strerror or error}") from error


def own_name(words: argparse.Namespace) -> Optional[str]:
    """The process that bossctl was told to be."""
    name: Optional[str] = words.own or os.environ.get("BOSSD_AS") or None
    return name


def asking_name(words: argparse.Namespace) -> str:
    """The process whose key is shown by questions."""
    return own_name(words) or NAMES[0]
