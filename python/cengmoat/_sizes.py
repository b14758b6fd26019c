"""Counts of bytes as people write and read them."""
from __future__ import annotations

import re
from typing import Union

from ._dtypes import as_int

UNITS = {"": 1, "b": 1, "kb": 10**3, "mb": 10**6, "gb": 10**9, "tb": 10**12,
         "k": 10**3, "m": 10**6, "g": 10**9, "t": 10**12,
         "kib": 2**10, "mib": 2**20, "gib": 2**30, "tib": 2**40}
MOST_BYTES = 2**40


def as_bytes(value: Union[int, str], what: str) -> int:
    """Return a count of bytes from 0 to 2^40 that is given as a number or as a text such as "2GB" or "64MiB".

    Raises
    ------
    TypeError
        Where it is neither a whole number nor a text.
    ValueError
        Where the text isn't such a size, or the count is out of its range.
    """
    if isinstance(value, str):
        found = re.fullmatch(r"\s*([0-9][0-9_]*(?:\.[0-9]+)?)\s*([A-Za-z]*)\s*", value)
        if not found or found[2].lower() not in UNITS:
            raise ValueError(f"{what}: {value!r} isn't a size such as 200000000, \"2GB\" or \"64MiB\"")
        number, unit = found[1].replace("_", ""), UNITS[found[2].lower()]
        whole, _, part = number.partition(".")
        count = int(whole) * unit + (int(part) * unit // 10 ** len(part) if part else 0)
    else:
        try:
            count = as_int(value, what)
        except TypeError:
            raise TypeError(f"{what}: {value!r} isn't a size such as 200000000, \"2GB\" or \"64MiB\"") from None
    if not 0 <= count <= MOST_BYTES:
        raise ValueError(f"{what}: {count} bytes aren't from 0 to 2^40")
    return count


def bytes_text(count: int) -> str:
    """Return a count of bytes in the unit that suits it: "24 B", "1.50 MiB"."""
    if count < 1024:
        return f"{count} B"
    size = float(count)
    for unit in ("KiB", "MiB", "GiB", "TiB"):
        size /= 1024
        if size < 1024 or unit == "TiB":
            break
    return f"{size:.2f} {unit}"
