#!/usr/bin/env python3
"""Writes the table of cases of reading a `.zarray`: zarray.json in crates/test_cases/data.

usage: tools/zarray_cases.py

Each row has a text, and the text of version 3 that is written for its layout, or the code with which it is refused. Layouts and
codes are written here by hand, from the form of version 2 and the order of its checks; nothing comes from the program.
"""
import json
import os
import sys

TOP = os.path.dirname(os.path.dirname(os.path.realpath(__file__)))
sys.path.insert(0, f"{TOP}/compare")
from rules import SIZES, Array, compact, limits  # noqa: E402
from said import usage_if_asked

BASE = {"chunks": [2], "compressor": None, "dtype": ">i2", "fill_value": -1, "filters": None, "order": "C", "shape": [4], "zarr_format": 2}
LAYOUT = {"dtype": "int16", "shape": [4], "chunk": [2], "fill": -1, "endian": "big", "encoding": "v2", "separator": "."}
CODES = {"bool": "b1", "int8": "i1", "int16": "i2", "int32": "i4", "int64": "i8", "uint8": "u1", "uint16": "u2", "uint32": "u4", "uint64": "u8"}
MEMBERS = ["shape", "chunks", "dtype", "compressor", "fill_value", "order", "filters"]
# A value of each member that is refused, in the order in which the members are tested, with its code.
WRONG = [("zarr_format", 3, 22), ("dtype", "<f4", 24), ("shape", None, 25), ("compressor", {"id": "zlib", "level": 1}, 28),
         ("order", "F", 29), ("fill_value", "0", 27), ("dimension_separator", "-", 26)]


def said(**changes):
    """Returns the members of the example with these changes."""
    return {**BASE, **changes}


def without(*names):
    return {name: value for name, value in BASE.items() if name not in names}


def read(name, members, **changes):
    """Returns a case whose text is read as the example's layout with these changes."""
    text = members if type(members) is str else compact(members)
    return {"name": name, "text": text, "written": compact(Array(**{**LAYOUT, **changes}).written())}


def refused(name, members, code):
    return {"name": f"refused: {name}", "text": compact(members), "refused": str(code)}


def accepted():
    """Yields the cases that are read."""
    yield read("the worked example", BASE)
    yield read("as zarr-python 2 writes it", json.dumps(BASE, indent=4, sort_keys=True))
    yield read("as xarray writes it", json.dumps(said(shape=[2, 3], chunks=[2, 3], dtype="<i4", fill_value=None), indent=4, sort_keys=True),
               dtype="int32", shape=[2, 3], chunk=[2, 3], endian="little", fill=0)
    yield read("in another order", json.dumps(dict(reversed(BASE.items()))))
    yield read("members of other names are passed over",
               said(attributes={"units": "m"}, node_type="group", must_understand=True, codecs=[], dimension_names=3))
    for dtype, code in CODES.items():
        low, high = limits(dtype)
        sign = "|" if SIZES[dtype] == 1 else "<"
        fill = bool(high) if dtype == "bool" else high
        yield read(f"{dtype}, its greatest number", said(dtype=sign + code, fill_value=fill), dtype=dtype, endian="little", fill=high)
        fill = bool(low) if dtype == "bool" else low
        yield read(f"{dtype} of the other sign, its least number", said(dtype=">" + code, fill_value=fill),
                   dtype=dtype, endian="little" if SIZES[dtype] == 1 else "big", fill=low)
        if SIZES[dtype] == 1:
            yield read(f"{dtype} with the sign of the lowest byte first", said(dtype="<" + code, fill_value=0), dtype=dtype, endian="little", fill=0)
    yield read("a truth value as the number 1", said(dtype="|b1", fill_value=1), dtype="bool", endian="little", fill=1)
    yield read("a fill value of null is 0", said(fill_value=None), fill=0)
    yield read("a fill value of null is false", said(dtype="|b1", fill_value=None), dtype="bool", endian="little", fill=0)
    yield read("a dot that is told", said(dimension_separator="."))
    yield read("a slash", said(dimension_separator="/"), separator="/")
    yield read("an empty list of filters", said(filters=[]))
    yield read("rank 0", said(shape=[], chunks=[]), shape=[], chunk=[])
    yield read("six axes, one of size 0", said(shape=[0, 1, 2, 3, 4, 5], chunks=[1, 1, 2, 3, 4, 6]), shape=[0, 1, 2, 3, 4, 5], chunk=[1, 1, 2, 3, 4, 6])
    yield read("the most chunks", said(shape=[65536], chunks=[1]), shape=[65536], chunk=[1])
    yield read("the greatest chunk", said(shape=[1 << 28], chunks=[1 << 27]), shape=[1 << 28], chunk=[1 << 27])


def refusals():
    """Yields the cases that are refused, by their codes."""
    for name, text in [("no text", ""), ("a list", "[2]"), ("a number", "2"), ("cut off", compact(BASE)[:-1]), ("with more behind it", compact(BASE) + "}"),
                       ("a mark in front", "\ufeff" + compact(BASE)), ("no UTF-8", {"hex": "ff"}), ("200 nested lists", {"repeat": ["[", 200]}),
                       ("spaces, as many as a text may have", {"repeat": [" ", 1048576]})]:
        yield {"name": f"refused: {name}", "text": text, "refused": "21"}
    yield {"name": "refused: one byte more", "text": {"repeat": [" ", 1048577]}, "refused": "30"}
    yield {"name": "refused: one byte more, of what would be read", "text": {"join": [compact(BASE), {"repeat": [" ", 1048577 - len(compact(BASE))]}]}, "refused": "30"}
    yield refused("no version", without("zarr_format"), 22)
    yield from (refused(f"the version {value}", said(zarr_format=value), 22) for value in (3, "2", 2.0, None))
    for place, name in enumerate(MEMBERS):
        yield refused(f"no {name}", without(name), f"23 {name}")
        yield refused(f"no {name}, and none of those behind it", without(*MEMBERS[place:]), f"23 {name}")
    yield from (refused(f"the type {compact(value)}", said(dtype=value), 24) for value in (
        "i2", "|i2", "|u8", "=i2", "<i3", "<i16", "<f8", "<c16", "<M8[ns]", "|S1", "<b2", "<B1", "<i2 ", "", "<", "\u00e9i2", "\u00e92", "int16", 2, None, [["a", "<i2"]]))
    yield from (refused(f"the shape {compact(value)}", said(shape=value), 25) for value in (
        4, None, "4", [-1], [4.0], ["4"], [True], [1 << 64], [1] * 7, [4, 4], [], [1 << 41], [65536 * 2 + 1]))
    yield from (refused(f"the chunks {compact(value)}", said(chunks=value), 25) for value in (2, None, True, [0], [-2], [2.0], [2, 2], [], [(1 << 27) + 1]))
    yield refused("seven axes", said(shape=[1] * 7, chunks=[1] * 7), 25)
    yield from (refused(f"the compressor {compact(value)}", said(compressor=value), 28) for value in ({"id": "blosc"}, {}, [], False, "zlib"))
    yield from (refused(f"the filters {compact(value)}", said(filters=value), 28) for value in ([{"id": "delta"}], [None], {}, False, "delta"))
    yield from (refused(f"the order {compact(value)}", said(order=value), 29) for value in ("F", "c", "", "CC", None, ["C"]))
    yield from (refused(f"the fill value {compact(value)}", said(fill_value=value), 27) for value in (-32769, 32768, 0.0, "0", "", "NaN", True, [], {}))
    yield refused("a fill value below an unsigned type", said(dtype="|u1"), 27)
    yield refused("a fill value above the greatest type", said(dtype="<u8", fill_value=1 << 64), 27)
    yield from (refused(f"the fill value {compact(value)} of truth values", said(dtype="|b1", fill_value=value), 27) for value in (2, -1, 1.0, "true"))
    yield from (refused(f"the separator {compact(value)}", said(dimension_separator=value), 26) for value in ("-", "", "./", None, 1, ["."]))
    for place, (name, _, code) in enumerate(WRONG):
        wrong = {other: value for other, value, _ in WRONG[place:]}
        yield refused(f"{name}, and each member that is tested later", said(**wrong), code)
    yield refused("an absent member, and a type, before the compressor", {**without("filters"), "dtype": "<f4", "compressor": {"id": "zlib"}}, "23 filters")


def main():
    cases = [*accepted(), *refusals()]
    lines = ",\n".join(json.dumps(case, separators=(",", ":"), ensure_ascii=True) for case in cases)
    with open(f"{TOP}/crates/test_cases/data/zarray.json", "w", encoding="utf-8") as file:
        file.write('{"kind":"zarray","cases":[\n' + lines + "\n]}\n")


if __name__ == "__main__":
    usage_if_asked(__doc__)
    main()
