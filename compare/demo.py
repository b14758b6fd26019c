#!/usr/bin/env python3
"""Runs `demo` at several sizes, and compares what it prints and each byte that it stores with NumPy and compare/rules.py.

  demo.py [--program FILE] [--dir FOLDER] [--sizes N,N..] [--workers N,N..] [--fusion 1|2]
"""
import argparse
import json
import os
import re
import subprocess
import sys
import tempfile
import types

import numpy

sys.dont_write_bytecode = True
import compare
import rules

EXPRESSION = {"nodes": [
    {"id": "a", "op": "input", "name": "demo_a"}, {"id": "b", "op": "input", "name": "demo_b"}, {"id": "s", "op": "add", "args": ["a", "b"]},
    {"id": "m", "op": "multiply", "args": ["s", 2]}, {"id": "p", "op": "permute_dims", "args": ["b"], "axes": [1, 0]},
    {"id": "d", "op": "subtract", "args": ["m", "p"]}, {"id": "r", "op": "sum", "args": ["d"], "axes": [1]},
    {"id": "x", "op": "argmax", "args": ["r"], "axis": None}], "out": "x", "store_as": "demo_y"}


def inputs_of(size):
    """Returns both inputs, each with its layout and its elements."""
    row, column = numpy.indices((size, size))
    side = min(64, size)
    elements = {"demo_a": ((3 * row + column) % 16 + row % 5, [side, size]), "demo_b": ((row + 5 * column) % 16, [size, side])}
    return [types.SimpleNamespace(name=name, array=rules.Array("int32", [size, size], chunk), elements=values.astype("int32"))
            for name, (values, chunk) in elements.items()]


def must_be_held(size, allowed, fusion):
    """Returns the plan of the run, and each file that there must be afterwards."""
    inputs = inputs_of(size)
    texts = {f"{entry.name}/zarr.json": rules.compact(entry.array.written()).encode() for entry in inputs}
    plan = rules.counted_plan(json.dumps(EXPRESSION).encode(), texts.get, allowed, 0, fusion=fusion)
    held = {**texts, **compare.must_be_stored(types.SimpleNamespace(inputs=inputs), plan)}
    for entry in inputs:
        for place in compare.chunks_of(entry.array):
            held[entry.array.key(entry.name, place)] = compare.bytes_of(entry.array, compare.whole_chunk(entry.array, entry.elements, place))
    return plan, held


def try_size(program, room, size, workers, allowed, fusion):
    """Runs the demo in a new folder, and says why it is wrong, or nothing."""
    plan, held = must_be_held(size, allowed, fusion)
    with tempfile.TemporaryDirectory(dir=room, prefix="cubed-demo-") as folder:
        words = [program, folder, "demo", str(size), "--allowed-mem", str(allowed)] + (["--workers", str(workers)] if workers > 1 else [])
        words += ["--fusion", str(fusion)] if fusion > 1 else []
        ended = subprocess.run(words, stdin=subprocess.DEVNULL, capture_output=True, text=True, check=False)
        a, b = (entry.elements.astype("int64") for entry in inputs_of(size))
        result = int(((a + b) * 2 - b.T).sum(axis=1).argmax())
        if (ended.returncode, ended.stdout, ended.stderr) != (0, f"demo {size} result={result}\n{plan.report()}", ""):
            return f"{' '.join(words)} ended with {ended}"
        found = {}
        for key in compare.files_in(folder):
            with open(os.path.join(folder, key), "rb") as file:
                found[key] = file.read()
        wrong = [key for key in sorted(set(held) | set(found)) if held.get(key) != found.get(key)]
        if wrong:
            return f"{' '.join(words)}: these files are others than NumPy's: {wrong[:5]}"
        ended = subprocess.run(words, stdin=subprocess.DEVNULL, capture_output=True, text=True, check=False)
        if (ended.returncode, ended.stderr) != (9, "error 9 key=demo_a/zarr.json\n"):
            return f"{' '.join(words)} a second time ended with {ended}"
    print(f"  demo {size} with {allowed} bytes and {workers} worker{'s' if workers > 1 else ''}: result={result}, {len(held)} files agree, "
          + re.sub(r"^ok |\n", "", plan.report()), flush=True)
    return None


def main():
    words = argparse.ArgumentParser(description=__doc__, formatter_class=argparse.RawDescriptionHelpFormatter)
    words.add_argument("--program", type=os.path.abspath, default=compare.PROGRAM)
    words.add_argument("--dir", default="/dev/shm" if os.path.isdir("/dev/shm") else tempfile.gettempdir())
    words.add_argument("--sizes", type=lambda told: [int(size) for size in told.split(",")], default=[1, 2, 4, 63, 64, 65, 512, 2048])
    words.add_argument("--workers", type=lambda told: [int(count) for count in told.split(",")], default=[1])
    words.add_argument("--fusion", type=int, choices=[1, 2], default=1)
    given = words.parse_args()
    for size in given.sizes:
        for workers in given.workers:
            for allowed in (rules.DEFAULT, 1000000)[:1 if size > 512 else 2]:
                wrong = try_size(given.program, given.dir, size, workers, allowed, given.fusion)
                if wrong:
                    print(wrong)
                    return 1
    return 0


if __name__ == "__main__":
    sys.exit(main())
