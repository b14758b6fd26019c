#!/usr/bin/env python3
"""Writes the tables of cases of the demonstration, with values that this script works out from the rule of each element alone.

usage: tools/demo_cases.py DATA     (as crates/test_cases/data)
"""
import json
import pathlib
import sys
from said import usage_if_asked

EXPR = {
    "nodes": [
        {"id": "a", "name": "demo_a", "op": "input"},
        {"id": "b", "name": "demo_b", "op": "input"},
        {"args": ["a", "b"], "id": "s", "op": "add"},
        {"args": ["s", 2], "id": "m", "op": "multiply"},
        {"args": ["b"], "axes": [1, 0], "id": "p", "op": "permute_dims"},
        {"args": ["m", "p"], "id": "d", "op": "subtract"},
        {"args": ["d"], "axes": [1], "id": "r", "op": "sum"},
        {"args": ["r"], "axis": None, "id": "x", "op": "argmax"},
    ],
    "out": "x",
    "store_as": "demo_y",
}


def element_a(i, j):
    return (3 * i + j) % 16 + i % 5


def element_b(i, j):
    return (i + 5 * j) % 16


def differences(i, j):
    return 2 * (element_a(i, j) + element_b(i, j)) - element_b(j, i)


def metadata(dtype, shape, chunk):
    return {
        "chunk_grid": {"configuration": {"chunk_shape": chunk}, "name": "regular"},
        "chunk_key_encoding": {"configuration": {"separator": "/"}, "name": "default"},
        "codecs": [{"configuration": {"endian": "little"}, "name": "bytes"}],
        "data_type": dtype,
        "fill_value": 0,
        "node_type": "array",
        "shape": shape,
        "zarr_format": 3,
    }


def record(size, allowed):
    cut = min(64, size)
    inputs = {"demo_a": metadata("int32", [size, size], [cut, size]), "demo_b": metadata("int32", [size, size], [size, cut])}
    return {"allowed": allowed, "cubed": 2, "expr": EXPR, "inputs": inputs, "reserved": 0, "split_every": 4}


def chunk(width, numbers):
    return {"hex": b"".join(number.to_bytes(width, "little", signed=True) for number in numbers).hex()}


def square(size, element):
    return chunk(4, [element(i, j) for i in range(size) for j in range(size)])


def asked_keys(names):
    """The keys that are asked for of arrays with these names, each array's in its turn."""
    return [key for name in names for key in (f"_cubed/{name}/plan.json", f"{name}/zarr.json", f"{name}/.zarray")]


# All keys that a demonstration of one chunk an array asks for, in their order.
ASKED = [*asked_keys(["demo_a", "demo_b", "demo_y"]), "_cubed/demo_y/0/c/0/0", "_cubed/demo_y/1/c/0/0", "_cubed/demo_y/2/c/0", "demo_y/c"]


def small():
    """A demonstration of one chunk an array, with all keys in the order in which they are stored."""
    size = 4
    sums = [sum(differences(i, j) for j in range(size)) for i in range(size)]
    place = sums.index(max(sums))
    whole = metadata("int32", [size, size], [size, size])
    leaves = [
        ["demo_a/c/0/0", square(size, element_a)],
        ["demo_a/zarr.json", whole],
        ["demo_b/c/0/0", square(size, element_b)],
        ["demo_b/zarr.json", whole],
        ["_cubed/demo_y/plan.json", record(size, 200_000_000)],
        ["demo_y/zarr.json", metadata("int64", [], [])],
        ["_cubed/demo_y/0/c/0/0", square(size, lambda i, j: element_b(j, i))],
        ["_cubed/demo_y/1/c/0/0", square(size, differences)],
        ["_cubed/demo_y/2/c/0", chunk(8, sums)],
        ["demo_y/c", chunk(8, [place])],
    ]
    again = "error 9 key=demo_a/zarr.json"
    ends = [[f"error 16 key={key}", 0, ""] for key in ASKED]
    ends += [[f"error 16 key={key}", at, again if at > 1 else ""] for at, (key, _) in enumerate(leaves[:6])]
    reads = [1, 3, 1, 1]
    for op, count in enumerate(reads):
        ends += [[f"error 10 op={op} task=0", 6 + op, again]] * (count + 1)
    ends.append(["error 16 key=demo_y/c", len(leaves), again])
    return {
        "name": "a demonstration of 4 by 4, whichever call fails",
        "words": ["demo", "4"],
        "output": f"demo 4 result={place}\nok ops=4 tasks=4 starts=4 failed=0 peak=3904\n",
        "leaves": leaves,
        "calls": len(ends),
        "loops": {"ends": ends, "sinks": True},
    }


def held(key):
    return {"holds": [[key, {"hex": "07"}]], "line": f"error 9 key={key}"}


def in_the_way():
    return {"name": "a key in the way is named, and nothing is stored", "words": ["demo", "4"],
            "rows": [{**held(key), "calls": at + 1} for at, key in enumerate(ASKED)]}


def refused():
    return {"name": "a demonstration that needs more than is allowed", "words": ["demo", "4", "--allowed-mem", "0"],
            "line": "error 5 node=2 need=1792 allowed=0", "calls": 0}


def large(workers):
    """One of several chunks, in a folder: of 512 each remainder modulo 16 occurs 32 times in a row."""
    size = 512
    sums = [sum(differences(i, j) for j in range(size)) for i in range(size)]
    assert sums == [3 * 3840 + 1024 * (i % 5) for i in range(size)]
    place = sums.index(max(sums))
    return {
        "name": f"a demonstration of 512 by 512 in a folder, run by {workers}",
        "steps": [
            {"words": ["demo", "512", "--allowed-mem", "1000000", "--workers", str(workers)],
             "output": f"demo 512 result={place}\nok ops=8 tasks=41 starts=41 failed=0 peak=658944\n",
             "leaves": [["demo_a/zarr.json", metadata("int32", [size, size], [64, size])], ["demo_b/zarr.json", metadata("int32", [size, size], [size, 64])],
                        ["_cubed/demo_y/plan.json", record(size, 1_000_000)], ["demo_y/zarr.json", metadata("int64", [], [])], ["demo_y/c", chunk(8, [place])]]},
            {"words": ["print", "demo_y"], "output": f"int64 shape [] chunk []\n{place}\n"},
            {"words": ["check"], "input": EXPR, "output": "equal 1\n"},
            {"words": ["demo", "512"], "line": "error 9 key=demo_a/zarr.json"},
        ],
    }


def table(kind, cases):
    shared = {} if kind == "folder" else {"shared": {"holds": []}}
    lines = ",\n".join(json.dumps(case, separators=(",", ":")) for case in cases)
    head = json.dumps({"kind": kind, **shared})[:-1]
    return f'{head},\n"cases": [\n{lines}]\n}}\n'


def main():
    data = pathlib.Path(sys.argv[1])
    (data / "demo.json").write_text(table("calls", [small(), in_the_way(), refused()]))
    (data / "demo_folder.json").write_text(table("folder", [large(4), large(1)]))


if __name__ == "__main__":
    usage_if_asked(__doc__)
    main()
