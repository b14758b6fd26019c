#!/usr/bin/env python3
"""Measures `check` beside NumPy on exact Python numbers and on machine numbers.

  check.py [--program FILE] [--dir FOLDER] [--runs N]

An addition of two arrays of 1,333,333 int32 elements, a sum of [1999,2000] int16 elements over its first axis, and a product of two
matrices of 128 by 128 int64 elements, each with its output stored by NumPy. The program reads the arrays, computes each element by
the plain rules, and compares. NumPy does the same over the same files, once with arrays of exact Python numbers (object) and once
with its own types. The least of the runs is told, in seconds and in ns for each element of each node (of the product: for each
multiplication), and the greatest resident memory in bytes for each element of each node, 16 MiB taken off.
"""
import json
import os
import sys
import tempfile
import time

import numpy

from measured import in_memory, words_of
from stored import HERE, timed  # stored.py, in this folder

sys.path.append(os.path.join(HERE, "..", "compare"))
import rules
from compare import bytes_of, chunks_of, place_of, put, whole_chunk
from rules import Array, compact

CASES = {
    "addition": ("add", {"a": ("int32", [1333333], [100000]), "b": ("int32", [1333333], [100000])}, {}),
    "sum over an axis": ("sum", {"a": ("int16", [1999, 2000], [500, 500])}, {"axes": [0]}),
    "matmul": ("matmul", {"a": ("int64", [128, 128], [64, 64]), "b": ("int64", [128, 128], [64, 64])}, {})}


def store_array(folder, name, array, elements):
    put(folder, f"{name}/zarr.json", compact(array.written()).encode())
    for place in chunks_of(array):
        put(folder, array.key(name, place), bytes_of(array, whole_chunk(array, elements, place)))


def load_array(folder, name, array):
    elements = numpy.empty(array.shape, array.dtype)
    for place in chunks_of(array):
        with open(os.path.join(folder, array.key(name, place)), "rb") as file:
            part = elements[place_of(place, array)]
            part[...] = numpy.frombuffer(file.read(), array.dtype).reshape(array.chunk)[tuple(map(slice, part.shape))]
    return elements


def value(op, arrays, members, dtype):
    first = arrays[0]
    if op == "add":
        return first + arrays[1]
    if op == "matmul":
        return first.dot(arrays[1]) if dtype is object else numpy.matmul(*arrays)
    return first.sum(axis=members["axes"][0], **({} if dtype is object else {"dtype": dtype}))


def by_numpy(folder, op, layouts, members, output, is_exact):
    """Seconds in which NumPy reads, computes and compares."""
    start = time.perf_counter()
    arrays = [load_array(folder, name, array) for name, array in layouts.items()]
    if is_exact:
        found = value(op, [array.astype(object) for array in arrays], members, object)
        low = rules.limits(output.dtype)[0]
        found = (found - low) % 2 ** (8 * rules.SIZES[output.dtype]) + low
    else:
        found = value(op, arrays, members, output.dtype)
    if not (found == load_array(folder, "y", output)).all():
        raise SystemExit("NumPy found a difference")
    return time.perf_counter() - start


def measure(program, parent, rounds, name):
    op, arrays, members = CASES[name]
    layouts = {key: Array(*layout) for key, layout in arrays.items()}
    rng = numpy.random.default_rng(1)
    with tempfile.TemporaryDirectory(dir=parent, prefix="cubed-bench-") as folder:
        elements = []
        for key, array in layouts.items():
            low, high = rules.limits(array.dtype)
            elements.append(rng.integers(low, high, array.shape, array.dtype, endpoint=True))
            store_array(folder, key, array, elements[-1])
        nodes = [*({"id": key, "op": "input", "name": key} for key in layouts), {"id": "r", "op": op, "args": list(layouts), **members}]
        dtype, shape, chunk = rules.typed({"nodes": nodes}, {key: array for key, array in layouts.items()})[-1]
        output = Array(dtype, shape, chunk)
        with numpy.errstate(all="ignore"):
            result = value(op, elements, members, output.dtype)
        store_array(folder, "y", output, result)
        text = json.dumps({"nodes": nodes, "out": "r", "store_as": "y"})
        runs = [timed([program, folder, "check"], text) for _ in range(rounds)]
        exact, own = (min(by_numpy(folder, op, layouts, members, output, is_exact) for _ in range(rounds)) for is_exact in (True, False))
    best, said, told = min(runs)
    assert said == f"equal {result.size}", said
    count = 128**3 if op == "matmul" else sum(array.size for array in elements) + result.size
    memory = f", resident {int(told[2]) / 1024:.1f} MiB, {(int(told[2]) * 1024 - 2**24) / count:.1f} bytes an element and node above 16 MiB" if told else ""
    print(f"{name}: cubed {best:.3f} s, {best * 1e9 / count:.1f} ns an element and node{memory}; "
          f"NumPy on exact numbers {exact:.3f} s, ratio {best / exact:.2f}; on its own {own:.4f} s, ratio {best / own:.1f}", flush=True)


def main():
    words = words_of(__doc__, runs=3, place=in_memory())
    given = words.parse_args()
    for name in CASES:
        measure(os.path.abspath(given.program), given.dir, given.runs, name)


if __name__ == "__main__":
    sys.exit(main())
