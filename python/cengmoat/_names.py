"""Names of arrays, and the keys that belong to one."""
from __future__ import annotations

import os
import re
from typing import Any, Union

MOST_LETTERS = 32
NAME = re.compile(r"[A-Za-z0-9][A-Za-z0-9_.-]{0,31}\Z")
ADDRESS = re.compile(r"[A-Za-z][A-Za-z0-9+.:-]*://")
# The names that the package gives itself: of what is stored while one call runs, and is removed at its end.
TEMPORARY, IN_MEMORY = "tmp-cengmoat-", "data-cengmoat-"
OWN = re.compile(rf"({TEMPORARY}[0-9a-f]{{10}}(-[0-9]{{1,3}})?|{IN_MEMORY}[0-9a-f]{{18}})\Z")


def as_folder(value: Union[str, os.PathLike[str]]) -> str:
    """Return the absolute path of a folder of this machine.

    Raises
    ------
    ValueError
        Where it is the address of a store of objects or of another service.
    """
    path = os.fspath(value)
    if isinstance(path, str) and ADDRESS.match(path):
        raise ValueError(f"{path} is no folder: the program reads and writes files of this machine. Fetch the arrays into a folder once, as by"
                         " store.save(\"t\", zarr.open(..)[\"t\"]), which reads a chunk at a time, or mount what lies there as a folder")
    return os.path.abspath(os.path.expanduser(path))


def is_name(value: Any) -> bool:
    """Return whether a value may name an array."""
    return isinstance(value, str) and NAME.match(value) is not None


def check_name(value: Any) -> str:
    """Return a name.

    Raises
    ------
    TypeError
        Where it isn't a text.
    ValueError
        Where it isn't 1 to 32 letters, digits, `_`, `-` and `.`, of which the first is a letter or a digit.
    """
    if not isinstance(value, str):
        raise TypeError(f"{value!r} isn't a name: a name is a text")
    if not is_name(value):
        short = _short(value)
        length = f" of {len(value)} letters" if len(value) > MOST_LETTERS else ""
        raise ValueError(f"{value!r}{length} isn't a name: a name has 1 to 32 of the letters A to Z and a to z, digits, _, - and .,"
                         f" and begins with a letter or a digit{f', as {short!r}' if short else ''}")
    return value


def _short(value: str) -> str:
    """Return a name that is like a text which isn't one, or nothing where no letter of it is left."""
    plain = re.sub(r"[^A-Za-z0-9_.-]+", "_", value).lstrip("_.-")
    # (of a long text the ends are kept: names that a script makes differ behind)
    half = MOST_LETTERS // 2
    return (plain if len(plain) <= MOST_LETTERS else f"{plain[:half - 1]}-{plain[-half:]}").rstrip("_.-")


def is_own(value: Any) -> bool:
    """Return whether a value is a name that the package gives itself."""
    return isinstance(value, str) and OWN.match(value) is not None


def check_free_name(value: Any) -> str:
    """Return a name under which a user may store; a ValueError also where it is one that the package gives itself."""
    name = check_name(value)
    if is_own(name):
        raise ValueError(f"{name!r} is a name of the package's own, for what it stores and removes within one call: take another")
    return name


def metadata_key(name: str) -> str:
    """Return the key of an array's metadata."""
    return f"{name}/zarr.json"


def zarray_key(name: str) -> str:
    """Return the key of an array's metadata of version 2, which is read where there is none of version 3."""
    return f"{name}/.zarray"


def record_key(name: str) -> str:
    """Return the key of the record of the plan that makes an array."""
    return f"_cubed/{name}/plan.json"
