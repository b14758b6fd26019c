#!/usr/bin/env python3
"""Computes a day's work on packed int16 data with one worker, and with Dask by one thread over the same chunk files, in one run.

  day.py [--program FILE] [--dir FOLDER].. [--runs N] [--workers N] [--fusion 1|2] [--c] [--first] [--python FILE] [--days N] [--only WORD..]

The data are days by latitudes by longitudes, [2920,180,360] in chunks of [365,180,90], with a base of [180,360] and a climatology of two
years. The works: how often each place exceeds its base, counted by int32 and by int8; a sum and a mean over the days without what is
missing; the day of the greatest anomaly; a sum of squares; the difference from day to day; the days and their mirror; what is left without
the climatology, repeated by `concat`; the days as series; all of it scaled and rounded down; what is left without the base; and the sums of
the twelve months, by xarray's groupby over Dask's arrays. Two more are reductions over what is reshaped (xarray's `coarsen`): the sums of
bins of 2 by 2 of maps of [512,512], and the greatest of each day of a year of maps from six hours to six hours. Each has an aim for each
`--fusion`, or for 2 alone. The program syncs each file before its rename, Dask writes as zarr does, without a sync. Which comes first
changes at each round, and what both store is compared byte by byte.

It prints the least times and the greatest resident memory of both, the ratio of the times (Dask's is without Python's start), and last
which of the aims were missed. Beside them stands the least time of a loop over the same files that computes nothing: it reads the days,
writes as many bytes as the program stores, and reads those of the array before a reduction again. So much the files take by
themselves, with one thread. It does so in memory, where there is such a folder, and on the disk.

With --c it measures plain loops in C too (day.c, in this folder), which `cc` compiles for the processor that the program is built for. They
go over the same chunk files chunk by chunk with one thread, and put each chunk of the result in place by a
synced new file that is renamed, as the program does. What they store is compared byte by byte too. The ratio is that of the seconds of the
processor, in the programs and in the system; its aims are for `--fusion 2`.

With --first and `--fusion 2` it measures `--fusion 1` in the same rounds too. Where nothing is to be made where it is read, both plans
have the same tasks, and the aim is that the later one takes no longer.
"""
import argparse
import itertools
import math
import os
import shutil
import sys
import tempfile
import time

sys.dont_write_bytecode = True
import programs  # programs.py, in this folder
from measured import node, over, words_of
from stored import (GNU_TIME, can_import, clear, folders, link_as_version_2, metadata, processor_seconds, put,
                    see_that_all_is_the_same, see_that_it_is_built, store_by_dask, timed)
from workers import Told

DAYS_A_CHUNK, PLACES, PLACES_A_CHUNK = 365, [180, 360], [180, 90]
DAYS, CHUNK, CLIMATE_DAYS, SERIES_SIDE = 2920, [DAYS_A_CHUNK, *PLACES_A_CHUNK], 730, 20
MISSING, MONTHS = -32768, 12
# Maps that are put into bins, and maps of which several make a day.
MAPS, MAP, MAPS_A_CHUNK = 160, [512, 512], 40
HOURS, HOURS_A_CHUNK, HOURS_A_DAY = 1460, 20, 4
CUBED, FIRST, DASK, LOOPS = "cubed", "cubed, --fusion 1", "Dask, one thread", "plain loops in C"
# The works with nothing to make where it is read, and how much of the time by `--fusion 1` they take at most (runs of one swing so much).
PLAIN, PLAIN_AIM = ("scaled and rounded down", "anomalies", "monthly sums"), 1.05


class Work:
    """What is computed of `t` and the other inputs: the nodes, the same by Dask's arrays of these names, and the aims: of how much of
    Dask's time, by the number of `--fusion`, and of how much of the processor's time of plain loops, by `--fusion 2`. Also the words of the
    run, and how many days there must be, if not any."""

    def __init__(self, nodes, by_dask, aim, fused_aim=None, names=("t", "base"), words=(), days=None, loops_aim=2.0):
        self.nodes, self.by_dask, self.aims = nodes, by_dask, {1: aim, 2: fused_aim or aim}
        self.names, self.words, self.days, self.loops_aim = names, list(words), days, loops_aim

    def expression(self):
        named = {argument for one in self.nodes for argument in one["args"]}
        return over([name for name in self.names if name in named], *self.nodes)


def exceedances(dtype, *aims):
    nodes = [node("g", "greater", "t", "base"), node("n", "astype", "g", dtype=dtype), node("s", "sum", "n", axes=[0])]
    return Work(nodes, lambda t, base: (t > base).astype(dtype).sum(axis=0), *aims)


def masked_sum(t, base):
    import dask.array
    return dask.array.where(t != MISSING, t, 0).sum(axis=0)


def masked_mean(t, base):
    import dask.array
    return masked_sum(t, base) // dask.array.maximum((t != MISSING).sum(axis=0), 1)


def without_climate(t, climate):
    import dask.array
    return t - dask.array.concatenate([climate] * (t.shape[0] // CLIMATE_DAYS), axis=0)


def in_bins():
    """The shape of the maps with an axis of two behind each of theirs."""
    return [MAPS, MAP[0] // 2, 2, MAP[1] // 2, 2]


def in_days():
    """The shape of the maps from hours to hours, day by day."""
    return [HOURS // HOURS_A_DAY, HOURS_A_DAY, *PLACES]


def monthly_sums(t, month):
    import numpy
    import xarray
    days = xarray.DataArray(t, dims=("day", "latitude", "longitude"), coords={"month": ("day", numpy.asarray(month))})
    return days.groupby("month").sum().transpose("month", ...).data.rechunk((MONTHS, *PLACES_A_CHUNK))


MASKED = [node("m", "not_equal", "t", MISSING), node("w", "where", "m", "t", 0), node("s", "sum", "w", axes=[0])]
# (what is there is counted by nodes of its own, so that nothing is read by two)
PRESENT = [node("k", "not_equal", "t", MISSING), node("c", "astype", "k", dtype="int32"), node("n", "sum", "c", axes=[0]), node("p", "maximum", "n", 1)]
WORKS = {
    "exceedances as int32": exceedances("int32", 1.0, 0.4),
    "exceedances as int8": exceedances("int8", 0.7, 0.4),
    "masked sum": Work(MASKED, masked_sum, 1.0, 0.4),
    "masked mean": Work([*MASKED, *PRESENT, node("y", "floor_divide", "s", "p")], masked_mean, None, 0.6),
    "place of the greatest anomaly": Work([node("d", "subtract", "t", "base"), node("y", "argmax", "d", axis=0)], lambda t, base: (t - base).argmax(axis=0), None, 0.4),
    "sum of squares": Work([node("i", "astype", "t", dtype="int64"), node("q", "square", "i"), node("s", "sum", "q", axes=[0])],
                           lambda t, base: (t.astype("int64") ** 2).sum(axis=0), None, 0.4),
    "difference from day to day": Work([node("u", "index", "t", index=[{"start": 1}]), node("v", "index", "t", index=[{"stop": -1}]), node("y", "subtract", "u", "v")],
                                       lambda t, base: (t[1:] - t[:-1]).rechunk(tuple(CHUNK)), None, 1.0),
    "days and their mirror": Work([node("f", "flip", "t"), node("y", "add", "t", "f")], lambda t, base: t + t[::-1, ::-1, ::-1], None, 0.8),
    "climatology by concat": Work([node("r", "concat", *["climate"] * 4, axis=0), node("y", "subtract", "t", "r")], without_climate, None, 0.9, ("t", "climate"), days=DAYS),
    "days to series": Work([node("y", "rechunk", "t", chunk=[DAYS, SERIES_SIDE, SERIES_SIDE])], lambda t, base: t.rechunk((DAYS, SERIES_SIDE, SERIES_SIDE)), None, 0.6,
                           words=["--allowed-mem", "400000000"], days=DAYS),
    "scaled and rounded down": Work(
        [node("i", "astype", "t", dtype="int32"), node("m", "multiply", "i", 9), node("d", "floor_divide", "m", 5), node("y", "add", "d", 320)],
        lambda t, base: (t.astype("int32") * 9) // 5 + 320, 0.6, loops_aim=None),
    "anomalies": Work([node("y", "subtract", "t", "base")], lambda t, base: t - base, 0.7, loops_aim=None),
    "monthly sums": Work([node("s", "groupby_sum", "t", "month", axis=0, groups=MONTHS)], monthly_sums, 0.25, names=("t", "month"), loops_aim=1.5),
    "bins of 2 by 2": Work([node("r", "reshape", "maps", shape=in_bins()), node("y", "sum", "r", axes=[2, 4])], lambda maps: maps.reshape(in_bins()).sum(axis=(2, 4)),
                           None, 0.5, ("maps",), loops_aim=None),
    "greatest of each day": Work([node("r", "reshape", "hours", shape=in_days()), node("y", "max", "r", axes=[1])], lambda hours: hours.reshape(in_days()).max(axis=1),
                                 None, 0.5, ("hours",), loops_aim=None)}


def layouts(days):
    """The shape and the chunk shape of each input."""
    return {"t": ([days, *PLACES], CHUNK), "climate": ([CLIMATE_DAYS, *PLACES], CHUNK), "base": (PLACES, PLACES_A_CHUNK), "month": ([days], [DAYS_A_CHUNK]),
            "maps": ([MAPS, *MAP], [MAPS_A_CHUNK, *MAP]), "hours": ([HOURS, *PLACES], [HOURS_A_CHUNK, *PLACES])}


def numbers_of(name, chunk):
    """The numbers of an input's chunk. Of the days some are missing."""
    import numpy
    rng = numpy.random.default_rng(1)
    if name == "month":
        return (numpy.arange(DAYS_A_CHUNK) * MONTHS // DAYS_A_CHUNK).astype("int16")
    if name in ("base", "climate"):
        return rng.integers(-500, 500, chunk, dtype="int16")
    numbers = rng.integers(-4000, 4000, chunk, dtype="int16")
    if name == "t":
        numbers[rng.random(chunk) < 0.01] = MISSING
    return numbers


def make_inputs(folder, days, names):
    """Stores the inputs of these names, and links them for a zarr that reads version 2 alone."""
    import numpy
    for name in names:
        shape, chunk = layouts(days)[name]
        numbers = numbers_of(name, chunk)
        put(os.path.join(folder, name, "zarr.json"), metadata("int16", shape, chunk).encode())
        counts = [-(-length // part) for length, part in zip(shape, chunk)]
        for turn, place in enumerate(itertools.product(*map(range, counts))):
            put(os.path.join(folder, name, "c", *map(str, place)), numpy.roll(numbers, 0 if name == "month" else 4099 * turn).tobytes())
        link_as_version_2(folder, name, "<i2", shape, chunk)


def definitions():
    """The sizes, by their names in C."""
    (rows, columns), columns_a_chunk = PLACES, PLACES_A_CHUNK[1]
    return {"DAYS_A_CHUNK": DAYS_A_CHUNK, "ROWS": rows, "COLUMNS": columns, "COLUMNS_A_CHUNK": columns_a_chunk, "CLIMATE_DAYS": CLIMATE_DAYS,
            "SERIES_SIDE": SERIES_SIDE, "SERIES_STRIPS": math.lcm(columns_a_chunk, SERIES_SIDE) // columns_a_chunk, "MISSING": MISSING, "MONTHS": MONTHS,
            "MAPS": MAPS, "MAPS_A_CHUNK": MAPS_A_CHUNK, "MAP_ROWS": MAP[0], "MAP_COLUMNS": MAP[1],
            "HOURS": HOURS, "HOURS_A_CHUNK": HOURS_A_CHUNK, "HOURS_A_DAY": HOURS_A_DAY}


def compiled_loops(folder):
    """The path of the plain loops, which are compiled into this folder, or nothing where there is no compiler."""
    return programs.compiled_loops("day", definitions(), folder)


def stored_files(top):
    """The sizes of the files below a folder that aren't texts of metadata, and their names."""
    walked = [os.path.join(at, name) for at, _, names in os.walk(top) for name in sorted(names) if not name.endswith(".json")]
    return {path: os.path.getsize(path) for path in walked}


def by_files_alone(folder, name):
    """The seconds of a loop that reads an input, writes files as long as those that a run stored, and reads those of the plan again."""
    read = stored_files(os.path.join(folder, name, "c"))
    between = stored_files(os.path.join(folder, "_cubed"))
    written = {**between, **stored_files(os.path.join(folder, "y"))}
    made = os.path.join(folder, "files")
    os.mkdir(made)
    room = memoryview(bytearray(b"\1") * max([*read.values(), *written.values()]))
    start = time.perf_counter()
    for path, size in read.items():
        with open(path, "rb", buffering=0) as file:
            file.readinto(room[:size])
    for number, size in enumerate(written.values()):
        with open(os.path.join(made, str(number)), "xb", buffering=0) as file:
            file.write(room[:size])
    for number, size in enumerate(between.values()):
        with open(os.path.join(made, str(number)), "rb", buffering=0) as file:
            file.readinto(room[:size])
    seconds = time.perf_counter() - start
    shutil.rmtree(made)
    return seconds


def fusion_words(given):
    return ["--fusion", str(given.fusion)] if given.fusion > 1 else []


# What each way stores.
MADE = {CUBED: ("y", "_cubed"), FIRST: ("y", "_cubed"), DASK: ("dask",), LOOPS: ("loops",)}


def measure(given, folder, name, work):
    """Goes through the ways in turn, and compares what they store. Returns what was measured of each."""
    run = [given.program, folder, "run", "--workers", str(given.workers), *work.words]
    ways = {CUBED: [*run, *fusion_words(given)]}
    if given.first and given.fusion > 1:
        ways[FIRST] = run
    if given.has_dask:
        ways[DASK] = [given.python, os.path.abspath(__file__), "--peer", name, folder]
    if given.loops:
        ways[LOOPS] = [given.loops, name, folder, str(given.days), "1"]
    told, alone = {way: Told() for way in ways}, []
    for number in range(given.runs):
        for way in list(ways)[::1 if number % 2 == 0 else -1]:
            clear(folder, MADE[way])
            os.sync()
            before = processor_seconds()
            told[way].add(timed(ways[way], work.expression()), way == DASK)
            told[way].processor.append(processor_seconds() - before)
            if way == CUBED:
                alone.append(by_files_alone(folder, work.names[0]))
        see_that_all_is_the_same(folder, name)
    return told, min(alone)


def ratios(given, name, work, told):
    """Of each peer the ratio of the program to it, by the clock or by the processor, and the aim."""
    found = {}
    if FIRST in told:
        found[FIRST] = min(told[CUBED].seconds) / min(told[FIRST].seconds), PLAIN_AIM if name in PLAIN else None
    if DASK in told:
        found[DASK] = min(told[CUBED].seconds) / min(told[DASK].seconds), work.aims[given.fusion]
    if LOOPS in told:
        found[LOOPS] = min(told[CUBED].processor) / min(told[LOOPS].processor), work.loops_aim if given.fusion == 2 else None
    return found


def tell(given, name, work, told, alone):
    """Prints what was measured of a work. Returns the aims that were missed."""
    print(f"  {name}: the files alone {alone:.3f} s")
    missed = []
    for way, one in told.items():
        print(f"    {way}: {one.row()}")
    for way, (ratio, aim) in ratios(given, name, work, told).items():
        print(f"    ratio to {way} {ratio:.2f}{f' (aim {aim})' if aim else ''}", end="")
        if way == FIRST:
            print(flush=True)
        elif way == DASK:
            print(f", of the files alone {alone / min(told[way].seconds):.2f}", flush=True)
        else:
            print(f" ({min(told[CUBED].processor):.3f} and {min(told[way].processor):.3f} s of the processor), by the clock"
                  f" {min(told[CUBED].seconds) / min(told[way].seconds):.2f}", flush=True)
        missed += [f"{name}: {ratio:.2f} of {way} for {aim}"] if aim and ratio > aim else []
    return missed


def table(given, found):
    """Prints what was measured as the rows of a table."""
    peers = list(dict.fromkeys(way for name, (work, told) in found.items() for way in ratios(given, name, work, told)))
    print("  | work | cubed | " + " | ".join(f"ratio to {way} | aim" for way in peers) + " |")
    print("  |---|---|" + "---|---|" * len(peers))
    for name, (work, told) in found.items():
        cells = [f"{ratio:.2f} | {aim or '-'}" for ratio, aim in ratios(given, name, work, told).values()]
        print(f"  | {name} | {min(told[CUBED].seconds):.3f} s | " + " | ".join(cells) + " |", flush=True)


def works_of(given):
    """The works that are asked for."""
    return {name: work for name, work in WORKS.items()
            if work.days in (None, given.days) and (not given.only or any(word in name for word in given.only))}


def measure_in(given, parent):
    """Measures the works in a folder. Returns the aims that were missed."""
    print(f"in {parent}, load {os.getloadavg()[0]:.1f}:", flush=True)
    found, missed = {}, []
    with tempfile.TemporaryDirectory(dir=parent, prefix="cubed-bench-") as folder:
        works = works_of(given)
        make_inputs(folder, given.days, sorted({name for work in works.values() for name in work.names}))
        for name, work in works.items():
            told, alone = measure(given, folder, name, work)
            missed += tell(given, name, work, told, alone)
            found[name] = work, told
            clear(folder, itertools.chain(*MADE.values()))
    if len(found) > 1:
        table(given, found)
    return [f"in {parent}: {one}" for one in missed]


def main():
    words = words_of(__doc__, python="NumPy, Dask, zarr and xarray")
    words.add_argument("--workers", type=int, default=1, help="how many workers the program has; Dask has one thread")
    words.add_argument("--fusion", type=int, choices=[1, 2], default=1, help="the version of the program's plans")
    words.add_argument("--c", action="store_true", help="measure plain loops in C too")
    words.add_argument("--first", action="store_true", help="measure `--fusion 1` too")
    words.add_argument("--days", type=int, default=DAYS, help="how many days there are; some works are of 2920 alone")
    words.add_argument("--only", nargs="*", help="the works whose names have one of these words")
    words.add_argument("--peer", nargs=2, help=argparse.SUPPRESS)
    given = words.parse_args()
    if given.peer:
        name, folder = given.peer
        print(store_by_dask(folder, WORKS[name].names, WORKS[name].by_dask))
        return
    given.program = os.path.abspath(given.program)
    see_that_it_is_built(given.program)
    given.has_dask = can_import(given.python, "dask.array", "zarr", "xarray")
    if not given.has_dask:
        print(f"{given.python} has no Dask, zarr and xarray, so the program is measured alone")
    if not os.access(GNU_TIME, os.X_OK):
        print(f"without {GNU_TIME} no memory is told")
    print(f"int16 {[given.days, *PLACES]} in chunks of {CHUNK}, --fusion {given.fusion}, the least of {given.runs} runs")
    with tempfile.TemporaryDirectory(prefix="cubed-build-") as made:
        given.loops = compiled_loops(made) if given.c else None
        missed = [one for parent in given.dir or folders() for one in measure_in(given, parent)]
    print("missed: " + "; ".join(missed) if missed else "no aim was missed")


if __name__ == "__main__":
    main()
