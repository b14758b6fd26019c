#!/usr/bin/env python3
"""Reduces an int32 array of 256 MiB in 64 chunks of 4 MiB, and multiplies matrices, with the program and with NumPy chunk by chunk.

  sums.py [--program FILE] [--dir FOLDER] [--runs N] [--python FILE] [--only NAME..]

NumPy reads each chunk once and reduces it, or multiplies each pair of chunks, puts the parts together in memory, and stores the result's
chunks, each a synced new file that is renamed; the program stores the partial results of each round too. Which comes first changes at
each round, and the least time of each is kept; the outputs are compared byte by byte. It prints times and ratios: in the folder in
memory where there is one.
"""
import itertools
import os
import shutil
import sys
import tempfile
import time

import numpy

sys.dont_write_bytecode = True
from measured import in_memory, node, over, turns, words_of
from stored import metadata, same_chunks, store, tell, timed

SIDE, CHUNKS, BLOCK, BLOCKS = 1024, 8, 128, 4
SUMS = {"sum over axis 0": ("sum", {"axes": [0]}), "sum over axis 1": ("sum", {"axes": [1]}), "sum of all": ("sum", {}),
        "greatest of all": ("max", {}), "any over axis 0": ("any", {"axes": [0]}), "argmax of all": ("argmax", {}), "argmin over axis 1": ("argmin", {"axis": 1})}
PRODUCTS = {"product of int64": "m", "product of int32": "n"}


class Peer:
    def __init__(self, folder):
        self.folder = folder

    def read(self, name, dtype, *place):
        with open(os.path.join(self.folder, name, "c." + ".".join(map(str, place))), "rb", buffering=0) as file:
            return numpy.frombuffer(file.read(), dtype)

    def put(self, place, cells):
        path = os.path.join(self.folder, "numpy", "c", *map(str, place))
        os.makedirs(os.path.dirname(path), exist_ok=True)
        store(path, numpy.ascontiguousarray(cells), True)

    def chunks(self):
        for i, j in itertools.product(range(CHUNKS), repeat=2):
            yield i, j, self.read("x", numpy.int32, i, j).reshape(SIDE, SIDE)

    def axis(self, members):
        return members.get("axis", members.get("axes", [None])[0])

    def reduce(self, op, members):
        axis = self.axis(members)
        kept = {}
        for i, j, part in self.chunks():
            value = getattr(numpy, op)(part, axis=axis)
            key = () if axis is None else (j if axis == 0 else i,)
            join = {"sum": numpy.add, "max": numpy.maximum, "any": numpy.logical_or}[op]
            kept[key] = join(kept[key], value) if key in kept else value
        for key, value in kept.items():
            self.put(key, numpy.asarray(value))

    def place(self, op, members):
        axis = self.axis(members)
        best = {}
        for i, j, part in self.chunks():
            own = getattr(numpy, op)(part, axis=axis)
            if axis is None:
                value, where = part.flat[own], (i * SIDE + own // SIDE) * SIDE * CHUNKS + j * SIDE + own % SIDE
                if () not in best or value > best[()][0] or value == best[()][0] and where < best[()][1]:
                    best[()] = value, where
                continue
            values = numpy.take_along_axis(part, own[:, None], 1)[:, 0]
            if (i,) not in best:
                best[i,] = values, own + j * SIDE
            else:
                old, places = best[i,]
                better = values < old
                best[i,] = numpy.where(better, values, old), numpy.where(better, own + j * SIDE, places)
        for key, (_, places) in best.items():
            self.put(key, numpy.asarray(places, numpy.int64))

    def product(self, name):
        dtype = numpy.int64 if name == "m" else numpy.int32
        def block(*place):
            return self.read(name, dtype, *place).reshape(BLOCK, BLOCK)
        for i, j in itertools.product(range(BLOCKS), repeat=2):
            self.put((i, j), sum(block(i, k) @ block(k, j) for k in range(BLOCKS)))


def expression(name):
    if name in PRODUCTS:
        array = PRODUCTS[name]
        return over([array], node("r", "matmul", array, array))
    op, members = SUMS[name]
    return over("x", node("r", op, "x", **members))


def make_inputs(folder):
    rng = numpy.random.default_rng(1)
    whole = rng.integers(-2**31, 2**31, SIDE * SIDE, dtype="int32")
    arrays = {"x": (SIDE, CHUNKS, "int32"), "m": (BLOCK, BLOCKS, "int64"), "n": (BLOCK, BLOCKS, "int32")}
    for name, (side, count, dtype) in arrays.items():
        os.makedirs(os.path.join(folder, name))
        with open(os.path.join(folder, name, "zarr.json"), "w") as file:
            file.write(metadata(dtype, [side * count] * 2, [side] * 2, "."))
        for number, place in enumerate(itertools.product(range(count), repeat=2)):
            cells = numpy.roll(whole, number * 4099)[:side * side].astype(dtype)
            with open(os.path.join(folder, name, "c." + ".".join(map(str, place))), "wb") as file:
                file.write(cells.tobytes())


def measure(program, folder, name, rounds, python):
    commands = {"cubed": [program, folder, "run"], "numpy": [python, os.path.abspath(__file__), "--peer", name, folder]}
    runs = {peer: [] for peer in commands}
    for peer in turns(commands, rounds):
        for made in ("y", "_cubed") if peer == "cubed" else ("numpy",):
            shutil.rmtree(os.path.join(folder, made), ignore_errors=True)
        runs[peer].append(timed(commands[peer], expression(name)))
    rest = os.path.join(folder, "numpy", "c")
    single = os.path.isfile(rest)
    if single:
        with open(rest, "rb") as left, open(os.path.join(folder, "y", "c"), "rb") as right:
            same = left.read() == right.read()
    else:
        same = same_chunks(folder, "y", "numpy")
    if not same:
        raise SystemExit(f"{name}: the chunks of NumPy and of the program differ")
    tell(name, runs)


def main():
    if "--peer" in sys.argv:
        name, folder = sys.argv[-2:]
        start = time.perf_counter()
        peer = Peer(folder)
        if name in PRODUCTS:
            peer.product(PRODUCTS[name])
        else:
            op, members = SUMS[name]
            (peer.place if op.startswith("arg") else peer.reduce)(op, members)
        print(time.perf_counter() - start)
        return
    words = words_of(__doc__, place=in_memory(), python="NumPy")
    words.add_argument("--only", nargs="*")
    given = words.parse_args()
    with tempfile.TemporaryDirectory(dir=given.dir, prefix="cubed-bench-") as folder:
        make_inputs(folder)
        for name in [*SUMS, *PRODUCTS]:
            if not given.only or name in given.only:
                measure(os.path.abspath(given.program), folder, name, given.runs, given.python)


if __name__ == "__main__":
    main()
