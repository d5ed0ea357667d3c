"""Keys, by which a client shows that it is a process: what one is, how it is read from a file, and how a line shows it.

A key is never in a text that is written: what is said of one names its file or its process."""

import base64
import hashlib
import json
import os
import secrets
import stat
from typing import Callable, Optional, Union

# What gives the key at each connection that is made; None, or an empty text, shows none.
Source = Callable[[], Optional[str]]
# A key's text, or what gives it.
Key = Union[str, Source]

SHORTEST, LONGEST = 32, 128
CHARACTERS = frozenset("ABCDEFGHIJKLMNOPQRSTUVWXYZabcdefghijklmnopqrstuvwxyz0123456789_-")
WANTED = f"{SHORTEST} to {LONGEST} characters of A-Z a-z 0-9 _ -"
# What a key begins with that was made here, so that it is known for one where somebody finds it; and how many random bytes follow.
FRONT, RANDOM = "bk1_", 32
# No file of a key has more bytes.
LONGEST_FILE = 4_096


class KeyRefused(OSError):
    """A file of a key was not taken. Its text says why, and has nothing of the key."""


def is_key(text: object) -> bool:
    """Whether a text may be a key at all."""
    return isinstance(text, str) and SHORTEST <= len(text) <= LONGEST and CHARACTERS.issuperset(text)


def new_key() -> str:
    """A key that nobody can guess."""
    return FRONT + base64.urlsafe_b64encode(secrets.token_bytes(RANDOM)).rstrip(b"=").decode()


def digest_of(key: str) -> str:
    """The digest by which the server's file of keys has a key."""
    return hashlib.sha256(key.encode()).hexdigest()


def source_of(key: Optional[Key]) -> Optional[Source]:
    """What gives a key that may be a text. ValueError for a text that is none."""
    if not isinstance(key, str):
        return key
    text = key
    if not is_key(text):
        raise ValueError(f"key= has a text that is no key: wanted {WANTED}")
    return lambda: text


def key_in(path: str, *, may_be_empty: bool = False) -> Source:
    """What gives the key of a file, for `key=`: it is read anew at each connection, so a changed one needs no restart. It is read once here,
    so that a faulty one is found at once. A file that is empty, where it may be, shows no key. KeyRefused where others than its owner may
    read the file, or it has no key; OSError where it can't be read."""
    def give() -> Optional[str]:
        return read_key(path, may_be_empty)

    give()
    return give


def read_key(path: str, may_be_empty: bool = False) -> Optional[str]:
    """The key that a file has, None where it is empty and may be. KeyRefused, OSError."""
    # One that is a pipe is not waited for.
    descriptor = os.open(path, os.O_RDONLY | getattr(os, "O_NONBLOCK", 0))
    with open(descriptor, "rb") as file:
        mode = os.fstat(descriptor).st_mode
        if not stat.S_ISREG(mode):
            raise KeyRefused(f"{path}: no plain file")
        if os.name == "posix" and mode & readers_refused(path):
            raise KeyRefused(f"{path}: others than its owner may read it, so it is not taken: chmod 600 {path}")
        text = file.read(LONGEST_FILE + 1).decode("ascii", "replace").strip()
    if not text and may_be_empty:
        return None
    if not is_key(text):
        raise KeyRefused(f"{path}: no key: wanted {WANTED}, and nothing else")
    return text


def readers_refused(path: str) -> int:
    """The bits of a mode that a file may not have. In the folder of a unit's credentials, into which that unit's user alone can look, the
    group's bits tell of that user."""
    credentials = os.environ.get("CREDENTIALS_DIRECTORY")
    if credentials and os.path.realpath(os.path.dirname(os.path.abspath(path))) == os.path.realpath(credentials):
        return stat.S_IRWXO
    return stat.S_IRWXG | stat.S_IRWXO


def keep_key(path: str, key: str) -> None:
    """Writes a key into a new file of mode 600, never over one that is there. OSError."""
    descriptor = os.open(path, os.O_WRONLY | os.O_CREAT | os.O_EXCL, 0o600)
    with open(descriptor, "w", encoding="ascii") as file:
        file.write(key + "\n")
        file.flush()
        os.fsync(descriptor)


def shown_in(line: bytes, key: str, name: Optional[str]) -> bytes:
    """The same line of a request with a key in it, and with the name whose key it is where that is not the line's process. Of two equal keys
    of an object the last counts."""
    said = {} if name is None else {"as": name}
    return line[:-2] + b"," + json.dumps({**said, "key": key}, separators=(",", ":")).encode()[1:] + b"\n"
