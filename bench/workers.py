#!/usr/bin/env python3
"""Computes with one worker, with several workers, and with Dask by as many threads over the same chunk files, in one run.

  workers.py [--program FILE] [--dir FOLDER].. [--runs N] [--workers N] [--fusion 1|2] [--c] [--python FILE] [--mebibytes N] [--only WORD..]

The works: an addition in chunks of 1 MiB, `(a*2 + b) > c` in chunks of 4 MiB, a sum over an axis, the sums up to each place along the
first axis and along the last, a change from columns to rows in 64 MiB, and a product of matrices; with `--fusion 2` also the works of
bench/day.py over its days, and with --c beside them its plain loops in C, by one process and by as many as there are workers. Then, with
the program alone, additions in 16,384 chunks of 1 KiB, and the memory that a copy of one task takes with one worker, four and sixteen. The
program and the loops sync each file before its rename, Dask writes as zarr does, without a sync. Which comes first changes at each round,
and what all store is compared byte by byte.

It prints the least times and the greatest resident memory of each, how many times as fast several workers are as one and as Dask (whose
time is without Python's start), and several processes of the loops as one, by the least times and round by round, how much of this gain
the workers have, and last which of the aims were missed. It does so in memory, where there is such a folder, and on the disk. Dask and zarr
must be in --python.
"""
import argparse
import functools
import itertools
import os
import statistics
import sys
import tempfile

sys.dont_write_bytecode = True
import small  # small.py, in this folder
from measured import node, over, turns, words_of
from stored import (GNU_TIME, MIB, can_import, clear, folders, link_as_version_2, metadata, put, see_that_all_is_the_same,
                    see_that_it_is_built, store_by_dask, timed)

ONE, MANY, DASK, LOOP, LOOPS = "one worker", "workers", "Dask", "one process of C", "processes of C"
# What each way stores.
MADE = {ONE: ("y", "_cubed"), MANY: ("y", "_cubed"), DASK: ("dask",), LOOP: ("loops",), LOOPS: ("loops",)}
# The workers of a copy of one task, whose memory is measured, and its array, in MiB.
CREWS, COPIED = (1, 4, 16), 64
# By how many times the workers are to be faster than one worker, than one with small tasks, and than Dask.
AIM, SMALL_AIM, DASK_AIM = 3.2, 2.0, 0.9
# Of a day's work: at most 0.9 of Dask's time, and at least 0.9 of what as many processes of the plain loops gain over one.
DAY_AIM, GAIN_AIM = 1 / 0.9, 0.9
TYPES = {"int32": "<i4", "int64": "<i8"}


class Work:
    """What is computed: the inputs' shape and chunk shape, the nodes over them, and the same by Dask's arrays."""

    def __init__(self, inputs, shape, chunk, nodes, by_dask, words=(), dtype="int32"):
        self.inputs, self.shape, self.chunk, self.dtype = inputs, shape, chunk, dtype
        self.nodes, self.by_dask, self.words = nodes, by_dask, list(words)
        self.aims = {ONE: AIM, DASK: DASK_AIM}

    def expression(self):
        return over(self.inputs, *self.nodes)


class DayWork:
    """A work of bench/day.py."""

    def __init__(self, work):
        self.work, self.inputs, self.words, self.by_dask = work, work.names, work.words, work.by_dask
        self.aims = {DASK: DAY_AIM}

    def expression(self):
        return self.work.expression()


def works_of(given):
    """The works, by their names."""
    found = works(given.mebibytes)
    if given.fusion == 2:
        import day  # day.py, in this folder, which takes what is measured of a way from here
        found.update((name, DayWork(work)) for name, work in day.WORKS.items())
    return found


def works(mebibytes):
    """The works over arrays of so many MiB (256 make the sizes that were meant; the memory of the copy goes with them)."""
    elements = mebibytes * MIB // 4
    side = 1 << (elements.bit_length() - 1) // 2
    strip, block = side // 32, max(64, 3 * side // 64)
    return {
        "addition": Work("ab", [elements], [MIB // 4], [node("s", "add", "a", "b")], lambda a, b: a + b),
        "(a*2 + b) > c": Work("abc", [elements], [MIB], [node("d", "multiply", "a", 2), node("s", "add", "d", "b"), node("g", "greater", "s", "c")],
                              lambda a, b, c: (a * 2 + b) > c),
        "sum over the first axis": Work("a", [side, side], [side // 8] * 2, [node("s", "sum", "a", axes=[0])], lambda a: a.sum(axis=0)),
        "sums up to each place, first axis": Work("a", [side, side], [side // 8] * 2, [node("s", "cumulative_sum", "a", axis=0)], lambda a: a.cumsum(axis=0)),
        "sums up to each place, last axis": Work("a", [side, side], [side // 8] * 2, [node("s", "cumulative_sum", "a", axis=1)], lambda a: a.cumsum(axis=1)),
        "columns to rows": Work("a", [side, side], [side, strip], [node("r", "rechunk", "a", chunk=[strip, side])],
                                lambda a: a.rechunk((strip, side)), ["--allowed-mem", str(side * side)]),
        "product of matrices": Work("ab", [4 * block] * 2, [block] * 2, [node("p", "matmul", "a", "b")], lambda a, b: a @ b, dtype="int64")}


def make_inputs(folder, work):
    """Stores arrays of numbers that differ from chunk to chunk, and links them for a zarr that reads version 2 alone."""
    import numpy
    counts = [-(-length // part) for length, part in zip(work.shape, work.chunk)]
    rng = numpy.random.default_rng(1)
    cells = rng.integers(-2**31, 2**31, functools.reduce(int.__mul__, work.chunk), dtype=work.dtype)
    for turn, name in enumerate(work.inputs):
        put(os.path.join(folder, name, "zarr.json"), metadata(work.dtype, work.shape, work.chunk).encode())
        for number, place in enumerate(itertools.product(*map(range, counts))):
            put(os.path.join(folder, name, "c", *map(str, place)), numpy.roll(cells, 4099 * number + 131 * turn).tobytes())
        link_as_version_2(folder, name, TYPES[work.dtype], work.shape, work.chunk)


def make_inputs_of_days(folder, works):
    """Stores what these works read of a day's inputs, once for all."""
    names = sorted({name for work in works if isinstance(work, DayWork) for name in work.inputs})
    if names:
        import day
        day.make_inputs(folder, day.DAYS, names)


class Told:
    """What was measured of one way: its seconds round by round, its seconds with all that it starts, GNU time's words of the best, and, if
    it was asked for, the seconds of the processor."""

    def __init__(self):
        self.seconds, self.whole, self.runs, self.processor = [], [], [], []

    def add(self, run, has_own_time):
        self.seconds.append(float(run[1]) if has_own_time else run[0])
        self.whole.append(run[0])
        self.runs.append(run)

    def row(self):
        told = min(self.runs)[2]
        memory = f", resident {int(told[2]) / 1024:.0f} MiB (processor: {told[0]} s in it, {told[1]} s in the system)" if told else ""
        start = f" ({min(self.whole):.3f} s with Python's start)" if self.seconds != self.whole else ""
        return f"{min(self.seconds):.3f} s{start}{memory}"


def times_as_fast(fast, slow):
    """How many times as fast the one way is as the other: by the least times, and the median of the rounds."""
    return min(slow.seconds) / min(fast.seconds), statistics.median(b / a for a, b in zip(fast.seconds, slow.seconds))


def ways_of_program(given, folder, words):
    """The program, with these words behind its own, by one worker and by several."""
    run = [given.program, folder, "run", *words, *(["--fusion", str(given.fusion)] if given.fusion > 1 else [])]
    return {ONE: run, MANY: [*run, "--workers", str(given.workers)]}


def ways_of_loops(given, folder, name, count):
    """The plain loops over so many days or chunks, by one process and by as many as there are workers."""
    return {way: [given.loops, name, folder, str(count), str(processes)] for way, processes in ((LOOP, 1), (LOOPS, given.workers))}


def ways_of(given, folder, name, work):
    ways = ways_of_program(given, folder, work.words)
    if given.has_dask:
        peer = ["--peer", name, folder, "--workers", str(given.workers), "--mebibytes", str(given.mebibytes), "--fusion", str(given.fusion)]
        ways[DASK] = [given.python, os.path.abspath(__file__), *peer]
    if given.loops and isinstance(work, DayWork):
        import day
        ways.update(ways_of_loops(given, folder, name, day.DAYS))
    return ways


def measure(given, ways, folder, name, text):
    """Goes through the ways over an expression in turn, and compares what they store. Returns what was measured of each."""
    told = {way: Told() for way in ways}
    for way in turns(ways, given.runs):
        clear(folder, MADE[way])
        os.sync()
        told[way].add(timed(ways[way], text), way == DASK)
        see_that_all_is_the_same(folder, name)
    return told


def told_as(given, way):
    """The words for a way."""
    return {MANY: f"{given.workers} workers", DASK: f"{DASK}, {given.workers} threads", LOOPS: f"{given.workers} processes of C"}.get(way, way)


def tell(given, name, told, aims):
    """Prints what was measured of one work. Returns which of its aims, beside these ways, and of that of the gain it missed."""
    print(f"  {name}:", flush=True)
    for way, one in told.items():
        print(f"    {told_as(given, way)}: {one.row()}")
    missed = []
    for many, way in ((MANY, ONE), (MANY, DASK), (MANY, LOOPS), (LOOPS, LOOP)):
        if way in told:
            least, median = times_as_fast(told[many], told[way])
            aim = aims.get(way, 0)
            print(f"    {told_as(given, many)} beside {told_as(given, way)}: {least:.2f} times as fast (median of the rounds {median:.2f}{f'; aim {aim:.3g}' if aim else ''})", flush=True)
            if least < aim:
                missed.append(f"{name} beside {way}: {least:.2f} for {aim:.3g}")
    return missed + tell_gain(name, told)


def tell_gain(name, told):
    """Prints how much of what the processes of the plain loops gain over one the workers gain, if the loops ran. Returns whether it
    missed its aim."""
    if LOOPS not in told:
        return []
    gained, by_loops = times_as_fast(told[MANY], told[ONE]), times_as_fast(told[LOOPS], told[LOOP])
    least, median = (own / other for own, other in zip(gained, by_loops))
    print(f"    the workers' gain beside that of the processes of C: {least:.2f} (median of the rounds {median:.2f}; aim {GAIN_AIM})", flush=True)
    return [f"{name}, gain beside {LOOPS}: {least:.2f} (median {median:.2f}) for {GAIN_AIM}"] if min(least, median) < GAIN_AIM else []


def tell_together(name, works):
    """Prints what was measured of several works together, whose times are added round by round. Returns which aims this missed."""
    told = {way: Told() for way in works[0]}
    for way, one in told.items():
        one.seconds = [sum(seconds) for seconds in zip(*(work[way].seconds for work in works))]
    print(f"  {name}: " + ", ".join(f"{way} {min(one.seconds):.3f} s" for way, one in told.items()), flush=True)
    return tell_gain(name, told)


def loops_of(given, folder):
    """The path of the plain loops of a day's works, if they are asked for."""
    if not given.c or given.fusion == 1:
        return None
    import day
    return day.compiled_loops(folder)


def measure_memory(given, parent):
    """Prints the resident memory of a copy of one task by crews of workers."""
    side = 1 << ((COPIED * MIB // 4).bit_length() - 1) // 2
    work = Work("a", [side, side], [side, side // 32], [node("r", "rechunk", "a", chunk=[side // 32, side])], None)
    with tempfile.TemporaryDirectory(dir=parent, prefix="cubed-bench-") as folder:
        make_inputs(folder, work)
        found, reports = {}, set()
        for workers in CREWS:
            clear(folder, MADE[MANY])
            _, report, told = timed([given.program, folder, "run", "--workers", str(workers)], work.expression())
            found[workers] = int(told[2]) / 1024 if told else 0
            reports.add(report)
    if any(" tasks=1 " not in report for report in reports):
        raise SystemExit(f"the copy isn't of one task: {reports}")
    peak = int(reports.pop().rsplit("peak=", 1)[1]) / MIB
    rows = ", ".join(f"{workers} worker{'s' * (workers > 1)} {memory:.1f} MiB" for workers, memory in found.items())
    print(f"  resident memory of a copy of one task of {COPIED} MiB ({peak:.1f} MiB projected): {rows}", flush=True)


def measure_in(given, parent):
    """Measures all works in a folder. Returns the aims that were missed."""
    print(f"in {parent}, load {os.getloadavg()[0]:.1f}:", flush=True)
    missed, beside_dask = [], []
    wanted = {name: work for name, work in works_of(given).items() if not given.only or any(word in name for word in given.only)}
    with tempfile.TemporaryDirectory(dir=parent, prefix="cubed-bench-") as days:
        make_inputs_of_days(days, wanted.values())
        for name, work in wanted.items():
            with tempfile.TemporaryDirectory(dir=parent, prefix="cubed-bench-") as own:
                folder = days if isinstance(work, DayWork) else own
                if folder == own:
                    make_inputs(folder, work)
                told = measure(given, ways_of(given, folder, name, work), folder, name, work.expression())
                clear(folder, itertools.chain(*MADE.values()))
            missed += tell(given, name, told, work.aims)
            if DASK in told:
                beside_dask.append(times_as_fast(told[MANY], told[DASK])[0] > 1)
    if not given.only or "small" in given.only:
        least = small.measure_small(given.program, parent, min(given.runs, 3), [1, given.workers])
        times = least[1] / least[given.workers]
        missed += [f"small tasks: {times:.2f} for {SMALL_AIM}"] if times < SMALL_AIM else []
    if (not given.only or "memory" in given.only) and os.access(GNU_TIME, os.X_OK):
        measure_memory(given, parent)
    if beside_dask:
        print(f"  ahead of Dask in {sum(beside_dask)} of {len(beside_dask)} works")
        missed += ["ahead of Dask in most"] if 2 * sum(beside_dask) <= len(beside_dask) else []
    return [f"in {parent}: {one}" for one in missed]


def main():
    words = words_of(__doc__, python="NumPy, Dask and zarr")
    words.add_argument("--workers", type=int, default=4, help="how many workers, and threads of Dask")
    words.add_argument("--fusion", type=int, choices=[1, 2], default=1, help="the version of the program's plans")
    words.add_argument("--c", action="store_true", help="measure a day's works by plain loops in C too")
    words.add_argument("--mebibytes", type=int, default=256, help="the size of each input")
    words.add_argument("--only", nargs="*", help="the works whose names have one of these words, `small` and `memory`")
    words.add_argument("--peer", nargs=2, help=argparse.SUPPRESS)
    given = words.parse_args()
    if given.peer:
        name, folder = given.peer
        work = works_of(given)[name]
        print(store_by_dask(folder, work.inputs, work.by_dask, given.workers))
        return
    given.program = os.path.abspath(given.program)
    see_that_it_is_built(given.program)
    given.has_dask = can_import(given.python, "dask.array", "zarr")
    if not given.has_dask:
        print(f"{given.python} has no Dask and zarr, so the program is measured alone")
    if not os.access(GNU_TIME, os.X_OK):
        print(f"without {GNU_TIME} no memory is told")
    print(f"{given.workers} workers on {os.cpu_count()} processors, inputs of {given.mebibytes} MiB, the least of {given.runs} runs")
    with tempfile.TemporaryDirectory(prefix="cubed-build-") as made:
        given.loops = loops_of(given, made)
        missed = [one for parent in given.dir or folders() for one in measure_in(given, parent)]
    print("missed: " + "; ".join(missed) if missed else "no aim was missed")


if __name__ == "__main__":
    main()
