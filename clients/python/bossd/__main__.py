"""python3 -m bossd: the reference, without what tuples and exceptions have of their own, which fills pydoc's pages."""

import inspect
import re
import sys
import textwrap
from typing import Any, Iterator

import bossd
import bossd.aio
import bossd.testing


HEADS = ("Functions", "What they give", "Refusals and errors", "Values and types")


def page() -> str:
    """The reference: each public name with its signature and what it says of itself."""
    parts = [str(bossd.__doc__).strip()]
    for place, head in enumerate(HEADS):
        names = [name for name in bossd.__all__ if place_of(getattr(bossd, name)) == place]
        parts += [f"{head}\n{'=' * len(head)}"] + ["\n".join(lines_of(name, getattr(bossd, name))) for name in names]
    for module in (bossd.aio, bossd.testing):
        parts.append(f"{module.__name__}\n{'=' * len(module.__name__)}\n{str(module.__doc__).strip()}")
    return "\n\n".join(parts) + "\n"


def place_of(one: Any) -> int:
    """Under which head a name stands."""
    if inspect.isclass(one):
        return 2 if issubclass(one, BaseException) else 1
    return 0 if inspect.isfunction(one) else 3


def lines_of(name: str, one: Any) -> Iterator[str]:
    """What is to be said of a name."""
    if inspect.isclass(one):
        yield from lines_of_class(name, one)
    elif inspect.isfunction(one):
        yield f"{name}{signature(one)}"
        yield from doc(one, "    ")
    elif not isinstance(one, dict):
        yield f"{name} = {one}"
    else:
        yield f"{name}: a dict of {len(one)}"


def lines_of_class(name: str, one: Any) -> Iterator[str]:
    fields = [f"{field}: {typed(one.__annotations__[field])}" for field in getattr(one, "_fields", ())]
    base = one.__bases__[0].__name__
    yield f"{name}({', '.join(fields)})" if fields else f"{name}({base})" if issubclass(one, BaseException) else f"{name}{signature(one)}"
    yield from doc(one, "    ")
    yield from lines_of_members(one)


def lines_of_members(one: Any) -> Iterator[str]:
    """The public methods and properties that are bossd's own."""
    seen = set()
    for owner in one.__mro__:
        if not owner.__module__.startswith("bossd") or (issubclass(one, bossd.Refused) and owner is not one):
            continue
        for name, member in vars(owner).items():
            if name.startswith("_") or name in seen or not (inspect.isfunction(member) or isinstance(member, property)):
                continue
            seen.add(name)
            yield f"    .{name}{signature(member) if inspect.isfunction(member) else ''}"
            yield from doc(member, "        ")


def signature(one: Any) -> str:
    """The signature, without what Python says of where a type is."""
    shown = inspect.signature(one)
    parameters = [parameter for name, parameter in shown.parameters.items() if name != "self"]
    return typed(str(shown.replace(parameters=parameters)))


def typed(text: Any) -> str:
    shown = text.__name__ if isinstance(text, type) else str(text)
    for module in ("bossd._protocol.", "bossd._client.", "bossd._session.", "typing.", "decimal."):
        shown = shown.replace(module, "")
    # Types that are named before they stand are in quotes.
    return re.sub(r"-> '(\w+)'", r"-> \1", shown).replace(" -> None", "")


def doc(one: Any, before: str) -> Iterator[str]:
    text = inspect.getdoc(one) if vars(type(one)).get("__doc__") != one.__doc__ else None
    if text:
        yield textwrap.indent(text, before)


if __name__ == "__main__":
    sys.stdout.write(page())
