#!/usr/bin/env python3
"""Writes the tables of cases of commands over arrays of Zarr version 2: version2.json and version2_folder.json in crates/test_cases/data.

usage: tools/version2_cases.py

Bytes, records, lines and counts of calls are written here by hand or come from compare/rules.py. Nothing comes from the program.
"""
import json
import os
import sys

TOP = os.path.dirname(os.path.dirname(os.path.realpath(__file__)))
sys.path.insert(0, f"{TOP}/compare")
import rules  # noqa: E402
from rules import Array, compact  # noqa: E402
from zarray_cases import BASE, said, without  # noqa: E402
from said import usage_if_asked

X0, X1 = {"hex": "0102 fffe"}, {"hex": "0003 fffd"}
WRITTEN = Array("int16", [4], [2], -1, "big", "v2", ".").written()
OTHER = Array("int16", [4], [4]).written()
NEGATIVE = {"nodes": [{"id": "x", "op": "input", "name": "x"}, {"id": "n", "op": "negative", "args": ["x"]}], "out": "n", "store_as": "y"}
PRINTED = "int16 shape [4] chunk [2]\n258 -2 -1 -1\n"
# A text of each code of version 2, from 21 to 30.
REFUSED = [("[]", 21), ({}, 22), (without("filters"), 23), (said(dtype="<f4"), 24), (said(chunks=[0]), 25), (said(dimension_separator="-"), 26),
           (said(fill_value=32768), 27), (said(compressor={"id": "blosc"}), 28), (said(order="F"), 29), ({"repeat": [" ", 1048577]}, 30)]


def held(zarray=BASE, *more):
    """What holds the example's array of version 2, with one chunk, and more."""
    return [["x/.zarray", zarray], ["x/0", X0], *map(list, more)]


def failing(key, times=3, call="get"):
    return [{"call": call, "key": key, "times": times}]


def bytes_of(value):
    return value.encode() if type(value) is str else compact(value).encode()


def ran(holds, chunks, text=NEGATIVE, **more):
    """A run that ends with 0, whose output's chunks are given."""
    plan = rules.plan_of(compact(text).encode(), {key: bytes_of(value) for key, value in holds if not key[-1].isdigit()}.get, rules.DEFAULT, 0)
    name = text["store_as"]
    leaves = [[f"_cubed/{name}/plan.json", plan.record()], [f"{name}/zarr.json", plan.array(plan.out).written()]]
    made = [[f"{name}/c/{place}", {"hex": chunk}] for place, chunk in enumerate(chunks)]
    return {"words": ["run"], "input": text, "holds": holds, "output": plan.report(), "leaves": leaves + made, **more}


def refused(words, holds, line, text=NEGATIVE, **more):
    return {"words": words, "input": "" if words[0] == "print" else text, "holds": holds, "line": f"error {line}", **more}


def inputs():
    """The worked example: -258, 2, and twice -(-1) for the chunk that is absent."""
    minus = ["fefe 0200", "0100 0100"]
    other = [["x/zarr.json", WRITTEN], ["x/0", X0]]
    again = {"nodes": [NEGATIVE["nodes"][0], {"id": "z", "op": "input", "name": "x"}, {"id": "s", "op": "add", "args": ["x", "z"]}], "out": "s", "store_as": "y"}
    both = {"nodes": [{"id": "a", "op": "input", "name": "a"}, NEGATIVE["nodes"][0], {"id": "s", "op": "add", "args": ["a", "x"]}], "out": "s", "store_as": "y"}
    mixed = [*held(), ["a/zarr.json", WRITTEN], ["a/1", X1]]
    # An array that two nodes use is asked for its metadata once; a task reads its chunk for each of the two.
    return [{**ran(held(), minus), "calls": 13}, ran(held(BASE, ["x/1", X1]), ["fefe 0200", "fdff 0300"]), {**ran(other, minus), "calls": 12},
            ran(held(said(fill_value=None)), ["fefe 0200", "0000 0000"]), ran(held(said(fill_value=None, filters=[], attributes={"units": "m"})), ["fefe 0200", "0000 0000"]),
            {**ran(held(), ["0402 fcff", "feff feff"], again), "calls": 15}, {**ran(mixed, ["0101 fdff", "0200 fcff"], both), "calls": 16}]


def refusals():
    """Each code, and which of two keys decides."""
    rows = []
    for words in (["run"], ["plan"], ["check"], ["print", "x"]):
        rows += [refused(words, held(text), f"7 name=x code={code}", calls=2) for text, code in REFUSED]
        rows += [refused(words, [["x/zarr.json", "[]"], *held()], "7 name=x code=1", calls=1), refused(words, [["x/0", X0]], "8 name=x", calls=2),
                 refused(words, [["x/.zarray/0", BASE], ["x/.zattrs", "{}"]], "8 name=x", calls=2)]
    first = ran([["x/zarr.json", WRITTEN], ["x/.zarray", "[]"], ["x/0", X0]], ["fefe 0200", "0100 0100"], calls=12)
    return rows + [first]


def ways():
    """Metadata of version 2 under the output's name."""
    own = {**NEGATIVE, "store_as": "x"}
    lost = {"nodes": [*NEGATIVE["nodes"], {"id": "d", "op": "input", "name": "y"}], "out": "n", "store_as": "y"}
    behind = held(BASE, ["y/.zarray", BASE])
    return [refused(["run"], held(), "9 key=x/.zarray", own, calls=4), refused(["run"], held(BASE, ["_cubed/x/plan.json", "{}"]), "9 key=_cubed/x/plan.json", own, calls=3),
            refused(["run"], [["x/zarr.json", WRITTEN], ["x/.zarray", BASE]], "9 key=x/zarr.json", own, calls=3),
            refused(["run"], held(BASE, ["y/.zarray", ""], ["y/c/0", ""]), "9 key=y/.zarray", calls=5), refused(["run"], behind, "9 key=y/.zarray", lost, calls=6),
            refused(["run"], held(), "16 key=y/.zarray", faults=failing("y/.zarray", call="has"), calls=7),
            refused(["run"], held(), "16 key=x/zarr.json", own, faults=failing("x/zarr.json", call="has"), calls=6)]


def printed():
    slash = [["x/.zarray", said(dimension_separator="/", shape=[2, 2], chunks=[1, 2])], ["x/0/0", X0], ["x/1/0", X1]]
    rows = [{"words": ["print", "x"], "holds": held(), "output": PRINTED, "calls": 4}, {"words": ["print", "x"], "holds": slash, "output": "int16 shape [2,2] chunk [1,2]\n258 -2\n3 -3\n"},
            {"words": ["print", "x"], "holds": held(BASE, ["x/zarr.json", OTHER]), "output": "int16 shape [4] chunk [4]\n0 0 0 0\n", "calls": 2},
            {"words": ["print", "x"], "holds": held(), "faults": failing("x/.zarray", 2), "output": PRINTED, "calls": 6},
            refused(["print", "x"], held(), "16 key=x/zarr.json", faults=failing("x/zarr.json"), calls=3), refused(["print", "x"], held(), "16 key=x/.zarray", faults=failing("x/.zarray"), calls=4)]
    return [*rows, {"words": ["print", "x"], "holds": [["x/.zarray", BASE], ["x/0", {"hex": "01"}]], "line": "error 13 key=x/0 got=1 want=4", "output": PRINTED, "front": True}]


def looped():
    """Each call of printing, and of a run, failing once and for good."""
    calls = ["x/zarr.json", "x/.zarray", "x/0", "x/1"]
    yield {"name": "an array of version 2 is printed, whichever call fails", "words": ["print", "x"], "holds": held(), "output": PRINTED, "calls": len(calls),
           "loops": {"ends": [[f"error 16 key={key}", 0, ""] for key in calls], "fronts": True, "once": {}, "sinks": True}}
    row = ran(held(BASE, ["x/1", X1]), ["fefe 0200", "fdff 0300"])
    asked = ["x/zarr.json", "x/.zarray", "_cubed/y/plan.json", "y/zarr.json", "y/.zarray", "y/c/0", "y/c/1"]
    before = "error 9 key=_cubed/y/plan.json"
    ends = [[f"error 16 key={key}", 0, ""] for key in asked] + [["error 16 key=_cubed/y/plan.json", 0, ""], ["error 16 key=y/zarr.json", 1, before]]
    ends += [[f"error 10 op=0 task={task}", 2 + task, before] for task in (0, 0, 1, 1)]
    yield {"name": "an array of version 2 is negated, whichever call fails", **row, "calls": len(ends),
           "loops": {"ends": ends, "once": {"from": 9, "output": row["output"].replace("starts=2 failed=0", "starts=3 failed=1")}, "late": len(ends), "sinks": True}}


def went_on():
    """A run goes on and is dropped. Metadata of the same layout in another version gives the same record, so that it goes on too."""
    row = ran(held(BASE, ["x/1", X1]), ["fefe 0200", "fdff 0300"])
    stored, whole = row["leaves"], row["output"]
    one = whole.replace("starts=2", "starts=1")
    steps = [{"holds": row["holds"], "words": ["run"], "output": whole, "leaves": stored},
             {"holds": [["y/c/1", None], ["y/.zarray", BASE]], "words": ["resume"], "output": one, "leaves": stored},
             {"words": ["drop"], "output": "ok keys=4\n", "leaves": [[key, None] for key, _ in stored]},
             {"words": ["run"], "line": "error 9 key=y/.zarray", "leaves": [[stored[0][0], None]]},
             {"holds": [["y/.zarray", None], ["x/zarr.json", WRITTEN]], "words": ["run"], "output": whole, "leaves": stored},
             {"holds": [["x/zarr.json", None], ["y/c/0", None]], "words": ["resume"], "output": one, "leaves": stored}]
    return {"name": "a run over an array of version 2 goes on, and is dropped", "steps": [{**step, "input": NEGATIVE} for step in steps]}


def checked():
    """The output of `check` is of version 3 alone."""
    y = [["y/zarr.json", Array("int16", [4], [2]).written()], ["y/c/0", {"hex": "fefe 0200"}], ["y/c/1", {"hex": "0100 0100"}]]
    old = [["y/.zarray", said(dtype="<i2", fill_value=0)], ["y/0", {"hex": "fefe 0200"}], ["y/1", {"hex": "0100 0100"}]]
    own = {**NEGATIVE, "store_as": "x"}
    return [{"words": ["check"], "input": NEGATIVE, "holds": [*held(), *y], "output": "equal 4\n", "calls": 7},
            refused(["check"], [*held(), *old], "8 name=y", calls=3), refused(["check"], [*held(), ["y/zarr.json", BASE], *y[1:]], "7 name=y code=2", calls=3),
            refused(["check"], [*held(), *old], "16 key=y/zarr.json", faults=failing("y/zarr.json"), calls=5),
            refused(["check"], held(), "8 name=x", own, calls=3), refused(["check"], y, "8 name=x", calls=2),
            refused(["check"], [*held(said(order="F"))], "7 name=x code=29", calls=2),
            refused(["check"], [*held(), y[0], ["y/c/0", {"hex": "fefe 0300"}], y[2]], "17 place=1 stored=3 plain=2")]


def table():
    return [{"name": "arrays of version 2 are inputs", "rows": inputs()}, {"name": "metadata that is refused, and the key that decides", "rows": refusals()},
            {"name": "metadata of version 2 of the output is in the way", "rows": ways()}, {"name": "arrays of version 2 are printed", "rows": printed()}, *looped(),
            {"name": "the output that is compared is of version 3", "rows": checked()}]


def write(file, kind, cases):
    lines = ",\n".join(json.dumps(case) for case in cases)
    with open(f"{TOP}/crates/test_cases/data/{file}", "w", encoding="utf-8") as out:
        out.write('{\n"kind": "' + kind + '",\n"cases": [\n' + lines + "\n]\n}\n")


def main():
    write("version2.json", "calls", table())
    write("version2_folder.json", "folder", [went_on()])


if __name__ == "__main__":
    usage_if_asked(__doc__)
    main()
