#!/usr/bin/env python3
"""Computes views of int32 arrays of 256 MiB in chunks of 4 MiB with the program and with NumPy chunk by chunk.

  views.py [--program FILE] [--dir FOLDER] [--runs N] [--workers N] [--c] [--python FILE] [--mebibytes N] [--fusion 1|2] [--only WORD..]

Each view is computed by one operation: a slice with step 1, a concat of two halves, a transposition, a flip, a triangle, a roll, and
arrays that are made, which are compared with storing such chunks alone. For each chunk of the result NumPy reads each chunk of which it
needs an element, as the program does.

Then come views along strides, of chunks of [1024,1024], [1M,4], [1M,1], six axes of 12, and maps of [512,512]: an axis of size 1 put in
behind the last or taken out, other shapes, axes in another order, all axes flipped, and axes stretched. Beside them stand chunks of columns
changed to chunks of series, and `a + a` in chunks of 1 KiB (of a sixteenth of the bytes). There NumPy copies each chunk once into a buffer,
and Dask, where --python has it, goes over the same chunk files with one thread (not of chunks of 1 KiB, of which it makes a graph first).

NumPy and the program put each chunk in place by a synced new file that is renamed; Dask writes as zarr does, without a sync. Which comes
first changes at each round, and the least time of each is kept; the outputs are compared byte by byte. It prints times and ratios, and
last which of the aims were missed: in the folder in memory where there is one, since nothing else than the view is to be measured.

With --workers it computes the views along strides alone, by one worker and by so many, and with --c beside them by plain loops in C (views.c,
in this folder), by one process and by as many. The loops go over the same chunk files, one nest over the axes of each chunk's view, and sync
each file before its rename. Which comes first changes at each round, and what they store is compared byte by byte with what the program has.
It prints the least times, how many times as fast the workers are as one and the processes as one, and how much of this gain the workers
have, by the least times and by the median of the rounds, in each view and in all together, and last where that misses its aim.
"""
import argparse
import itertools
import json
import math
import os
import sys
import tempfile
import time

import numpy

sys.dont_write_bytecode = True
import programs  # programs.py, in this folder, as is workers.py
import workers
from measured import in_memory, node, over, turns, words_of
from stored import (MIB, can_import, clear, link_as_version_2, metadata, put, same_as_version_2, same_chunks, see_that_it_is_built, store,
                    store_by_dask, tell, timed)

# The views along strides: at most so much of the time of the peers, and of NumPy's where it goes across the cache's lines.
AIMS = {"numpy": 1.2, "dask": 1.0}
TURNED = {"numpy": 0.5, "dask": 1.0}
SIX = [12] * 6
SIDE = 1024
CHUNK = SIDE * SIDE
# As many axes has the nest of loops in C.
AXES = 6


def read_chunk(folder, name, place, room):
    with open(os.path.join(folder, name, "c", *map(str, place)), "rb", buffering=0) as file:
        if file.readinto(room) != room.nbytes:
            raise SystemExit("a chunk was cut short")
    return room


def put_chunk(folder, place, cells):
    path = os.path.join(folder, "numpy", "c", *map(str, place))
    os.makedirs(os.path.dirname(path), exist_ok=True)
    store(path, cells, True)


class Peer:
    """NumPy over the stored chunks of the arrays."""

    def __init__(self, folder, chunks):
        self.folder, self.chunks = folder, chunks
        self.side = int(chunks**0.5)
        self.room = numpy.empty(CHUNK, numpy.int32)
        self.made = numpy.empty(CHUNK, numpy.int32)

    def read(self, name, *place):
        return read_chunk(self.folder, name, place, self.room)

    def put(self, place, cells):
        put_chunk(self.folder, place, numpy.ascontiguousarray(cells))

    def moved(self, parts):
        """Stores an array of one axis. `parts` gives of each chunk of it the name and chunk of each source that it needs, its first
        element there, its first element here, and how many there are."""
        for number, pieces in enumerate(parts):
            self.made[:] = 0
            for name, chunk, from_, to, count in pieces:
                self.made[to:to + count] = self.read(name, chunk)[from_:from_ + count]
            self.put([number], self.made)

    def range_parts(self, ranges, total):
        """Returns the parts of an array that is so many elements long and has these ranges of `v` one behind the other."""
        parts = [[] for _ in range(-(-total // CHUNK))]
        at = 0
        for first, count in ranges:
            while count:
                own = min(count, CHUNK - first % CHUNK, CHUNK - at % CHUNK)
                parts[at // CHUNK].append(("v", first // CHUNK, first % CHUNK, at % CHUNK, own))
                first, count, at = first + own, count - own, at + own
        return parts

    def slice(self):
        total = self.chunks * CHUNK - 2000
        self.moved(self.range_parts([(1000, total)], total))

    def roll(self):
        total = self.chunks * CHUNK
        self.moved(self.range_parts([(total - 12345, 12345), (0, total - 12345)], total))

    def concat(self):
        half = self.chunks // 2
        self.moved([[(name, chunk, 0, 0, CHUNK)] for name in ("left", "right") for chunk in range(half)])

    def transpose(self):
        for i, j in itertools.product(range(self.side), repeat=2):
            self.put([i, j], self.read("x", j, i).reshape(SIDE, SIDE).T)

    def flip(self):
        for i, j in itertools.product(range(self.side), repeat=2):
            self.put([i, j], self.read("x", i, self.side - 1 - j).reshape(SIDE, SIDE)[:, ::-1])

    def triangle(self):
        for i, j in itertools.product(range(self.side), repeat=2):
            if j > i:
                self.put([i, j], numpy.zeros((SIDE, SIDE), numpy.int32))
            else:
                cells = self.read("x", i, j).reshape(SIDE, SIDE)
                self.put([i, j], numpy.tril(cells) if i == j else cells)

    def full(self):
        self.made[:] = 7
        for number in range(self.chunks):
            self.put([number], self.made)

    def arange(self):
        self.made[:] = numpy.arange(CHUNK)
        for number in range(self.chunks):
            self.put([number], self.made + numpy.int32(number * CHUNK))


def viewed(op, *args, **members):
    return over(args, node("r", op, *args, **members))


def expressions(chunks):
    total = chunks * CHUNK
    return {"slice": viewed("index", "v", index=[{"start": 1000, "stop": total - 1000}]), "concat": viewed("concat", "left", "right", axis=0),
            "transpose": viewed("permute_dims", "x", axes=[1, 0]), "flip": viewed("flip", "x", axes=[1]),
            "triangle": viewed("tril", "x", k=0),
            "roll": viewed("roll", "v", shifts=[12345], axes=[0]), "full": viewed("full", shape=[total], dtype="int32", value=7, chunk=[CHUNK]),
            "arange": viewed("arange", start=0, stop=total, step=1, dtype="int32", chunk=[CHUNK])}


def make_array(folder, name, shape, chunk):
    """Stores an array of numbers that differ from chunk to chunk, and links it for a zarr that reads version 2 alone."""
    cells = numpy.random.default_rng(1).integers(-2**31, 2**31, math.prod(chunk), dtype="int32")
    put(os.path.join(folder, name, "zarr.json"), metadata("int32", shape, chunk).encode())
    for number, place in enumerate(itertools.product(*[range(size // sides) for size, sides in zip(shape, chunk)])):
        put(os.path.join(folder, name, "c", *map(str, place)), numpy.roll(cells, number * 4099).tobytes())
    link_as_version_2(folder, name, "<i4", shape, chunk)


def make_inputs(folder, chunks):
    side, half = int(chunks**0.5), chunks // 2 * CHUNK
    for name, shape in {"v": [chunks * CHUNK], "left": [half], "right": [half]}.items():
        make_array(folder, name, shape, [CHUNK])
    make_array(folder, "x", [side * SIDE] * 2, [SIDE] * 2)


# Views along strides

def in_braces(*values):
    """A value of several parts, as C has it."""
    return "{" + ", ".join(map(str, values)) + "}"


def loops_over(view):
    """The size and the step, in elements, of each loop over a view, the outermost first. Axes that one step goes over have one loop, and
    where there are fewer than six, those without a step come first."""
    loops = []
    for size, stride in zip(view.shape, view.strides):
        step = stride // view.itemsize
        if loops and loops[-1][1] == size * step:
            loops[-1] = loops[-1][0] * size, step
        elif size > 1:
            loops.append((size, step))
    return [(1, 0)] * (AXES - len(loops)) + loops


class Strided:
    """A view of `s`, whose chunks of this shape stand along one axis (`along`): the operator, its members for so many chunks, the view of a
    chunk by NumPy and of the whole by Dask. The result's chunks stand along an axis too (`axis`), and the other way if it is turned."""

    words, has_dask = (), True

    def __init__(self, chunk, op, members, of_chunk, by_dask, along=0, axis=0, is_turned=False, aims=AIMS):
        self.chunk, self.op, self.members, self.of_chunk, self.by_dask = chunk, op, members, of_chunk, by_dask
        self.along, self.axis, self.is_turned, self.aims = along, axis, is_turned, aims

    def count(self, mebibytes):
        """How many chunks of the result have so many MiB."""
        return max(1, mebibytes * MIB // 4 // self.of_chunk(numpy.empty(self.chunk, "int32")).size)

    def make_input(self, folder, count):
        make_array(folder, "s", [size * count if axis == self.along else size for axis, size in enumerate(self.chunk)], self.chunk)

    def expression(self, count):
        return viewed(self.op, "s", **self.members(count))

    def by_numpy(self, folder, count):
        """The peer: each chunk is read, copied along the view's strides, and stored. The seconds that this takes."""
        start = time.perf_counter()
        room = numpy.empty(self.chunk, "int32")
        view = self.of_chunk(room)
        made = numpy.empty(view.shape, "int32")
        for number in range(count):
            read_chunk(folder, "s", self.at(self.along, len(self.chunk), number), room)
            numpy.copyto(made, view)
            put_chunk(folder, self.at(self.axis, view.ndim, count - 1 - number if self.is_turned else number), made)
        return time.perf_counter() - start

    def at(self, axis, rank, number):
        return [number if place == axis else 0 for place in range(rank)]

    def in_c(self, name):
        """The view as views.c has it."""
        room = numpy.empty(self.chunk, "int32")
        view = self.of_chunk(room)
        first = (view.ctypes.data - room.ctypes.data) // room.itemsize
        sizes, steps = zip(*loops_over(view))
        return in_braces(json.dumps(name), "along_strides", room.size, view.size, in_braces(room.ndim, self.along), in_braces(view.ndim, self.axis),
                         int(self.is_turned), first, in_braces(*sizes), in_braces(*steps))


def stretched(axis, count):
    """Six axes of 12, of which one is that of the chunks."""
    return [12 * count if place == axis else 12 for place in range(6)]


def broadcast_by_dask(axis):
    def view(s):
        import dask.array
        return dask.array.broadcast_to(s, stretched(axis, s.shape[axis] // 12))
    return view


def moved(chunk, op, members, view, **places):
    """A view whose members say nothing of how many chunks there are, and that is the same of a chunk as of the whole."""
    return Strided(chunk, op, lambda count: members, view, view, **places)


def broadcast(chunk, axis):
    return Strided(chunk, "broadcast_to", lambda count: {"shape": stretched(axis, count), "chunk": SIX}, lambda s: numpy.broadcast_to(s, SIX),
                   broadcast_by_dask(axis), along=axis, axis=axis)


class Series:
    """Chunks of columns changed to chunks of series, as many of the one as of the other at a time."""

    COLUMNS, SERIES, TIMES = [4 * SIDE, SIDE // 4], [SIDE, SIDE], 4
    words, has_dask, aims = ("--allowed-mem", str(64 * MIB)), True, AIMS

    def count(self, mebibytes):
        return max(1, mebibytes * MIB // 4 // CHUNK // self.TIMES)

    def make_input(self, folder, count):
        make_array(folder, "s", [4 * SIDE, SIDE * count], self.COLUMNS)

    def expression(self, count):
        return viewed("rechunk", "s", chunk=self.SERIES)

    def by_numpy(self, folder, count):
        start = time.perf_counter()
        room, region = numpy.empty(self.COLUMNS, "int32"), numpy.empty([4 * SIDE, SIDE], "int32")
        for number in range(count):
            for beside in range(self.TIMES):
                read_chunk(folder, "s", [0, number * self.TIMES + beside], room)
                region[:, beside * SIDE // 4:(beside + 1) * SIDE // 4] = room
            for below in range(self.TIMES):
                put_chunk(folder, [below, number], region[below * SIDE:(below + 1) * SIDE])
        return time.perf_counter() - start

    def by_dask(self, s):
        return s.rechunk(tuple(self.SERIES))


class Doubled:
    """`a + a` in chunks of 1 KiB. (What a task costs beside its bytes is most of it.)"""

    ELEMENTS = 256
    words, has_dask, aims = (), False, AIMS

    def count(self, mebibytes):
        return mebibytes * MIB // 16 // 1024

    def make_input(self, folder, count):
        make_array(folder, "s", [self.ELEMENTS * count], [self.ELEMENTS])

    def expression(self, count):
        return over("s", node("r", "add", "s", "s"))

    def by_numpy(self, folder, count):
        start = time.perf_counter()
        room, made = numpy.empty(self.ELEMENTS, "int32"), numpy.empty(self.ELEMENTS, "int32")
        for number in range(count):
            read_chunk(folder, "s", [number], room)
            numpy.add(room, room, out=made)
            put_chunk(folder, [number], made)
        return time.perf_counter() - start


STRIDED = {
    "permute_dims, [1024,1024] transposed": moved([SIDE, SIDE], "permute_dims", {"axes": [1, 0]}, lambda s: s.T, axis=1, aims=TURNED),
    "expand_dims, [1M,4]": moved([MIB, 4], "expand_dims", {"axis": -1}, lambda s: s[..., None]),
    "expand_dims, [1024,1024]": moved([SIDE, SIDE], "expand_dims", {"axis": -1}, lambda s: s[..., None]),
    "squeeze, [1M,1]": moved([MIB, 1], "squeeze", {"axes": [1]}, lambda s: s[:, 0]),
    "reshape, [1M,4] to one axis": moved([MIB, 4], "reshape", {"shape": [-1]}, lambda s: s.reshape(-1)),
    "reshape, six axes to two": moved(SIX, "reshape", {"shape": [-1, 1728]}, lambda s: s.reshape((-1, 1728))),
    "reshape, bins of 2 by 2": moved([4, 512, 512], "reshape", {"shape": [-1, 256, 2, 256, 2]}, lambda s: s.reshape((-1, 256, 2, 256, 2))),
    "permute_dims, six axes reversed": moved(SIX, "permute_dims", {"axes": [5, 4, 3, 2, 1, 0]}, lambda s: s.transpose((5, 4, 3, 2, 1, 0)), axis=5),
    "permute_dims, pairs of axes": moved(SIX, "permute_dims", {"axes": [1, 0, 3, 2, 5, 4]}, lambda s: s.transpose((1, 0, 3, 2, 5, 4)), axis=1),
    "flip of all axes, [1024,1024]": moved([SIDE, SIDE], "flip", {}, lambda s: s[::-1, ::-1], is_turned=True),
    "flip of all axes, six": moved(SIX, "flip", {}, lambda s: s[(slice(None, None, -1),) * 6], is_turned=True),
    "broadcast_to, [12,1] three times": broadcast([12, 1] * 3, 0),
    "broadcast_to, [1,12] three times": broadcast([1, 12] * 3, 1),
    "columns to series": Series(),
    "a + a in chunks of 1 KiB": Doubled()}


def definitions():
    """The views of one chunk each and the sizes of the others, by their names in C."""
    rows, columns = Series.COLUMNS
    return {"AXES": AXES, "ROWS": rows, "COLUMNS": columns, "TIMES": Series.TIMES, "ELEMENTS": Doubled.ELEMENTS,
            "STRIDED": ", ".join(view.in_c(name) for name, view in STRIDED.items() if isinstance(view, Strided))}


def compiled_loops(folder):
    """The path of the plain loops, which are compiled into this folder, or nothing where there is no compiler."""
    return programs.compiled_loops("views", definitions(), folder)


# What each way stores.
MADE = {"cubed": ("y", "_cubed"), "numpy": ("numpy",), "dask": ("dask",)}


def measured(commands, folder, text, rounds):
    """Runs the ways in turn over an expression. Returns what was measured of each."""
    runs = {peer: [] for peer in commands}
    for peer in turns(commands, rounds):
        clear(folder, MADE[peer])
        runs[peer].append(timed(commands[peer], text))
    return runs


def peer_of(given, peer, name, folder, count):
    return [given.python, os.path.abspath(__file__), "--peer", peer, name, folder, str(count)]


def fusion_words(given):
    return ["--fusion", str(given.fusion)] if given.fusion > 1 else []


def measure(given, folder, name, text, chunks):
    commands = {"cubed": [given.program, folder, "run", *fusion_words(given)], "numpy": peer_of(given, "numpy", name, folder, chunks)}
    runs = measured(commands, folder, text, given.runs)
    if not same_chunks(folder, "y", "numpy"):
        raise SystemExit(f"{name}: the chunks of NumPy and of the program differ")
    return tell(name, runs)


def measure_strided(given, name, view):
    """Measures a view along strides in a folder of its own. Returns the aims that were missed."""
    count = view.count(given.mebibytes)
    with tempfile.TemporaryDirectory(dir=given.dir, prefix="cubed-bench-") as folder:
        view.make_input(folder, count)
        has_dask = given.has_dask and view.has_dask
        peers = ["numpy", *(["dask"] if has_dask else [])]
        commands = {"cubed": [given.program, folder, "run", *view.words, *fusion_words(given)], **{peer: peer_of(given, peer, name, folder, count) for peer in peers}}
        runs = measured(commands, folder, view.expression(count), given.runs)
        if not same_chunks(folder, "y", "numpy") or has_dask and not same_as_version_2(folder, "y", "dask"):
            raise SystemExit(f"{name}: the chunks of the peers and of the program differ")
    return tell(name, runs, view.aims)


def measure_gain(given, name, view):
    """Measures what several workers gain over one in a view along strides. Returns what was measured of each way."""
    count = view.count(given.mebibytes)
    with tempfile.TemporaryDirectory(dir=given.dir, prefix="cubed-bench-") as folder:
        view.make_input(folder, count)
        ways = workers.ways_of_program(given, folder, view.words)
        if given.loops:
            ways.update(workers.ways_of_loops(given, folder, name, count))
        return workers.measure(given, ways, folder, name, view.expression(count))


def run_peer(peer, name, folder, count):
    """What a peer does; the seconds that it takes."""
    if peer == "dask":
        return store_by_dask(folder, ["s"], STRIDED[name].by_dask)
    if name in STRIDED:
        return STRIDED[name].by_numpy(folder, count)
    start = time.perf_counter()
    getattr(Peer(folder, count), name)()
    return time.perf_counter() - start


def is_wanted(given, name):
    return not given.only or any(word in name for word in given.only)


def measure_beside_peers(given):
    """Measures all views beside NumPy, and those along strides beside Dask. Returns the aims that were missed."""
    given.has_dask = can_import(given.python, "dask.array", "zarr")
    chunks, missed = given.mebibytes // 4, []
    with tempfile.TemporaryDirectory(dir=given.dir, prefix="cubed-bench-") as folder:
        texts = {name: text for name, text in expressions(chunks).items() if is_wanted(given, name)}
        if texts:
            make_inputs(folder, chunks)
        for name, text in texts.items():
            missed += measure(given, folder, name, text, chunks)
    for name, view in STRIDED.items():
        missed += measure_strided(given, name, view) if is_wanted(given, name) else []
    return missed


def measure_gains(given):
    """Measures what several workers gain in the views along strides. Returns the aims that were missed."""
    print(f"{given.workers} workers on {os.cpu_count()} processors, views of {given.mebibytes} MiB, the least of {given.runs} runs,"
          f" in {given.dir}, load {os.getloadavg()[0]:.1f}")
    with tempfile.TemporaryDirectory(prefix="cubed-build-") as made:
        given.loops = compiled_loops(made) if given.c else None
        told, missed = [], []
        for name, view in STRIDED.items():
            if is_wanted(given, name):
                told.append(measure_gain(given, name, view))
                missed += workers.tell(given, name, told[-1], {})
    return missed + (workers.tell_together("all these views", told) if len(told) > 1 else [])


def main():
    words = words_of(__doc__, place=in_memory(), python="NumPy, Dask and zarr")
    words.add_argument("--workers", type=int, default=1, help="how many workers; of several their gain is measured, of the views along strides alone")
    words.add_argument("--c", action="store_true", help="with several workers, measure the gain of as many processes of plain loops in C too")
    words.add_argument("--mebibytes", type=int, default=256, choices=[16, 64, 256, 1024])
    words.add_argument("--fusion", type=int, choices=[1, 2], default=1, help="the version of the program's plans")
    words.add_argument("--only", nargs="*", help="the views whose names have one of these words")
    words.add_argument("--peer", nargs=4, help=argparse.SUPPRESS)
    given = words.parse_args()
    if given.peer:
        peer, name, folder, count = given.peer
        print(run_peer(peer, name, folder, int(count)))
        return
    given.program = os.path.abspath(given.program)
    if given.c and given.workers == 1:
        words.error("--c goes with several --workers")
    see_that_it_is_built(given.program)
    missed = measure_gains(given) if given.workers > 1 else measure_beside_peers(given)
    print("missed: " + "; ".join(missed) if missed else "no aim was missed")


if __name__ == "__main__":
    main()
