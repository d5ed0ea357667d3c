"""Builds the package for pip, by the standard library alone: `pip install clients/python` works on a machine without a network.

The functions are those of PEP 517. What is told of the package stands in pyproject.toml, each on a line of its own, and the version in
bossd/__init__.py."""

import base64
import hashlib
import io
import os
import re
import tarfile
import zipfile

HERE = os.path.dirname(os.path.abspath(__file__))
TAG = "py3-none-any"


def text_of(*path):
    with open(os.path.join(HERE, *path), encoding="utf-8") as file:
        return file.read()


def settings():
    """The lines `key = "text"` of pyproject.toml, by their tables and keys. Python before 3.11 reads no TOML, so it is read by hand."""
    found, table = {}, ""
    for line in text_of("pyproject.toml").splitlines():
        header = re.fullmatch(r"\[([\w.-]+)\]", line)
        pair = re.fullmatch(r'([\w-]+) = (?:[\[{ ]*\w+ = )?"([^"]*)"[\]} ]*', line)
        if header:
            table = header[1]
        elif pair:
            found[table, pair[1]] = pair[2]
    return found


def version():
    return re.search(r'^__version__ = "(.+)"$', text_of("bossd", "__init__.py"), re.M)[1]


def metadata():
    told = settings()
    return (f"Metadata-Version: 2.1\nName: {told['project', 'name']}\nVersion: {version()}\n"
            f"Summary: {told['project', 'description']}\nAuthor: {told['project', 'authors']}\nLicense: {told['project', 'license']}\n"
            f"Requires-Python: {told['project', 'requires-python']}\nDescription-Content-Type: text/markdown\n\n{text_of('README.md')}")


def entry_points():
    scripts = [f"{name} = {call}\n" for (table, name), call in settings().items() if table == "project.scripts"]
    return "[console_scripts]\n" + "".join(scripts)


def modules():
    """The names of the package's files below this folder."""
    found = []
    for folder, inner, names in os.walk(os.path.join(HERE, "bossd")):
        inner[:] = sorted(set(inner) - {"__pycache__"})
        found += [os.path.relpath(os.path.join(folder, name), HERE) for name in sorted(names) if name.endswith((".py", ".typed"))]
    return found


def pack(folder, files):
    """A wheel of these files, by their names in it."""
    told = f"bossd-{version()}.dist-info"
    files = {
        **files,
        f"{told}/METADATA": metadata().encode(),
        f"{told}/WHEEL": f"Wheel-Version: 1.0\nGenerator: make_wheel\nRoot-Is-Purelib: true\nTag: {TAG}\n".encode(),
        f"{told}/entry_points.txt": entry_points().encode(),
    }
    record = "".join(f"{name},sha256={digest(data)},{len(data)}\n" for name, data in files.items()) + f"{told}/RECORD,,\n"
    name = f"bossd-{version()}-{TAG}.whl"
    with zipfile.ZipFile(os.path.join(folder, name), "w", zipfile.ZIP_DEFLATED) as wheel:
        for place, data in {**files, f"{told}/RECORD": record.encode()}.items():
            # One date for all, so that the same files make the same wheel.
            entry = zipfile.ZipInfo(place, (2020, 1, 1, 0, 0, 0))
            entry.external_attr = 0o644 << 16
            wheel.writestr(entry, data, zipfile.ZIP_DEFLATED)
    return name


def digest(data):
    return base64.urlsafe_b64encode(hashlib.sha256(data).digest()).rstrip(b"=").decode()


def build_wheel(wheel_directory, config_settings=None, metadata_directory=None):
    return pack(wheel_directory, {name: text_of(name).encode() for name in modules()})


def build_editable(wheel_directory, config_settings=None, metadata_directory=None):
    return pack(wheel_directory, {"bossd-editable.pth": (HERE + "\n").encode()})


def build_sdist(sdist_directory, config_settings=None):
    stem = f"bossd-{version()}"
    with tarfile.open(os.path.join(sdist_directory, f"{stem}.tar.gz"), "w:gz") as pack_of_sources:
        for name in ["pyproject.toml", "make_wheel.py", "README.md", *modules()]:
            pack_of_sources.add(os.path.join(HERE, name), f"{stem}/{name}")
        told = metadata().encode()
        entry = tarfile.TarInfo(f"{stem}/PKG-INFO")
        entry.size = len(told)
        pack_of_sources.addfile(entry, io.BytesIO(told))
    return f"{stem}.tar.gz"
