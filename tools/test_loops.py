"""Tests the plain loops in C beside which a day's work and views along strides are measured (bench/day.c and bench/views.c): over small
arrays they store what NumPy gives.

They are left out where there is no compiler or no NumPy.
"""
import itertools
import os
import shutil
import sys
from unittest import mock

from test_base import TOP, InFolder, files_in, put, run

sys.path.append(f"{TOP}/bench")
import day  # day.py, in bench

try:
    import numpy
    import views  # views.py, in bench, which can't do without NumPy
except ImportError:
    numpy = None
# Among so few numbers are many equal ones; sums of the outermost wrap, and the least is missing.
NUMBERS = [-2**15, 1 - 2**15, *range(-7, 8), 2**15 - 2, 2**15 - 1]
# Days of which the last ones may not fill a chunk, and series that two chunks side by side have part of.
SIZES = {"DAYS_A_CHUNK": 4, "PLACES": [6, 12], "PLACES_A_CHUNK": [6, 3], "CHUNK": [4, 6, 3], "CLIMATE_DAYS": 8, "SERIES_SIDE": 2, "MONTHS": 3,
         "MAPS": 4, "MAP": [4, 6], "MAPS_A_CHUNK": 2, "HOURS": 16, "HOURS_A_CHUNK": 8}


def present(t):
    return t != day.MISSING


def monthly(t, month):
    sums = numpy.zeros([day.MONTHS, *t.shape[1:]], "int64")
    numpy.add.at(sums, month[month < day.MONTHS], t[month < day.MONTHS])
    return sums


# What each work stores of its inputs, and the chunks of that.
FORMULAS = {
    "exceedances as int32": (lambda t, base: (t > base).sum(axis=0), [6, 3]),
    "exceedances as int8": (lambda t, base: (t > base).sum(axis=0), [6, 3]),
    "masked sum": (lambda t, base: (t * present(t)).sum(axis=0), [6, 3]),
    "masked mean": (lambda t, base: (t * present(t)).sum(axis=0) // numpy.maximum(present(t).sum(axis=0), 1), [6, 3]),
    "place of the greatest anomaly": (lambda t, base: (t - base).argmax(axis=0), [6, 3]),
    "sum of squares": (lambda t, base: (t.astype("int64") ** 2).sum(axis=0), [6, 3]),
    "difference from day to day": (lambda t, base: t[1:] - t[:-1], [4, 6, 3]),
    "days and their mirror": (lambda t, base: t + t[::-1, ::-1, ::-1], [4, 6, 3]),
    "climatology by concat": (lambda t, climate: t - numpy.concatenate([climate] * (len(t) // 8)), [4, 6, 3]),
    "days to series": (lambda t, base: t, [None, 2, 2]),
    "scaled and rounded down": (lambda t, base: t.astype("int32") * 9 // 5 + 320, [4, 6, 3]),
    "anomalies": (lambda t, base: t - base, [4, 6, 3]),
    "monthly sums": (monthly, [3, 6, 3]),
    "bins of 2 by 2": (lambda maps: maps.reshape(4, 2, 2, 3, 2).sum(axis=(2, 4)), [2, 2, 3]),
    "greatest of each day": (lambda hours: hours.reshape(4, 4, 6, 12).max(axis=1), [2, 6, 12])}


def small_strided():
    """Views along strides of small chunks, by the names of those that are measured. For Dask's arrays they have what NumPy makes of the whole."""
    six = [2, 3, 1, 4, 2, 3]

    def over(chunk, view, **places):
        return views.moved(chunk, None, None, view, **places)

    def stretched(chunk, axis):
        return views.Strided(chunk, None, None, lambda s: numpy.broadcast_to(s, [3] * 6),
                             lambda s: numpy.broadcast_to(s, [s.shape[axis] if place == axis else 3 for place in range(6)]), along=axis, axis=axis)

    return {
        "permute_dims, [1024,1024] transposed": over([4, 6], lambda s: s.T, axis=1),
        "expand_dims, [1M,4]": over([5, 4], lambda s: s[..., None]),
        "expand_dims, [1024,1024]": over([3, 3], lambda s: s[..., None]),
        "squeeze, [1M,1]": over([7, 1], lambda s: s[:, 0]),
        "reshape, [1M,4] to one axis": over([5, 4], lambda s: s.reshape(-1)),
        "reshape, six axes to two": over(six, lambda s: s.reshape(-1, 24)),
        "reshape, bins of 2 by 2": over([3, 4, 6], lambda s: s.reshape(-1, 2, 2, 3, 2)),
        "permute_dims, six axes reversed": over(six, lambda s: s.transpose(5, 4, 3, 2, 1, 0), axis=5),
        "permute_dims, pairs of axes": over(six, lambda s: s.transpose(1, 0, 3, 2, 5, 4), axis=1),
        "flip of all axes, [1024,1024]": over([4, 6], lambda s: s[::-1, ::-1], is_turned=True),
        "flip of all axes, six": over(six, lambda s: numpy.flip(s), is_turned=True),
        "broadcast_to, [12,1] three times": stretched([3, 1] * 3, 0),
        "broadcast_to, [1,12] three times": stretched([1, 3] * 3, 1)}


def formulas_of_views():
    """What each small view stores of its input: the shape of a part of that, the axis along which the parts stand, their chunks, what NumPy
    makes of the whole, and the chunks of this."""
    found = {name: (view.chunk, view.along, view.chunk, view.by_dask, view.of_chunk(numpy.empty(view.chunk, "int32")).shape)
             for name, view in small_strided().items()}
    found["columns to series"] = [6, 6], 1, [6, 2], lambda s: s, [2, 6]
    found["a + a in chunks of 1 KiB"] = [5], 0, [5], lambda s: s + s, [5]
    return found


def chunks_of(array, chunk):
    """The bytes of the chunks of an array by their places, with zeros where an end isn't filled."""
    found = {}
    for place in itertools.product(*(range(-(-size // side)) for size, side in zip(array.shape, chunk))):
        part = array[tuple(slice(at * side, (at + 1) * side) for at, side in zip(place, chunk))]
        whole = numpy.zeros(chunk, array.dtype)
        whole[tuple(map(slice, part.shape))] = part
        found["/".join(map(str, place))] = whole.tobytes()
    return found


class Loops(InFolder):
    def setUp(self):
        super().setUp()
        if numpy is None or not shutil.which("cc"):
            self.skipTest("there is no NumPy or no compiler")
        for sizes in (mock.patch.multiple(day, **SIZES), mock.patch.dict(views.STRIDED, small_strided()),
                      mock.patch.multiple(views.Series, COLUMNS=[6, 2], TIMES=3), mock.patch.multiple(views.Doubled, ELEMENTS=5)):
            sizes.start()
            self.addCleanup(sizes.stop)

    def store(self, name, array, chunk):
        for place, cells in chunks_of(array, chunk).items():
            put(f"{self.top}/{name}/c/{place}", cells)

    def inputs(self, days):
        """Stores each input, and returns them by their names."""
        rng, found = numpy.random.default_rng(days), {}
        for name, (shape, chunk) in day.layouts(days).items():
            found[name] = rng.choice(range(5) if name == "month" else NUMBERS, shape).astype("int16")
            if name == "t":
                found[name][:, 0, 0] = day.MISSING
            self.store(name, found[name], chunk)
        return found

    def stored(self):
        found = {}
        for place in files_in(f"{self.top}/loops/c"):
            with open(f"{self.top}/loops/c/{place}", "rb") as file:
                found[place] = file.read()
        return found

    def see_what_is_stored(self, program, name, count, processes, wanted):
        """Runs the loops of this name over so many days or chunks, and compares what they store with these chunks."""
        shutil.rmtree(f"{self.top}/loops", ignore_errors=True)
        ended = run(program, name, self.top, str(count), str(processes))
        self.assertEqual(ended.returncode, 0, ended.stderr)
        self.assertGreater(float(ended.stdout), 0)
        self.assertEqual(self.stored(), wanted)

    def test_each_work_stores_what_numpy_gives(self):
        program = day.compiled_loops(self.room)
        self.assertEqual(set(FORMULAS), set(day.WORKS))
        for days, processes in ((16, 1), (16, 3), (14, 1), (14, 4)):
            inputs = self.inputs(days)
            for name, (formula, chunk) in FORMULAS.items():
                if name == "climatology by concat" and days % day.CLIMATE_DAYS:
                    continue
                with self.subTest(work=name, days=days, processes=processes):
                    wanted = formula(*(inputs[one] for one in day.WORKS[name].names))
                    self.see_what_is_stored(program, name, days, processes, chunks_of(wanted, [side or days for side in chunk]))
            shutil.rmtree(self.top)
            os.mkdir(self.top)

    def test_each_view_stores_what_numpy_gives(self):
        program, formulas = views.compiled_loops(self.room), formulas_of_views()
        self.assertEqual(set(formulas), set(views.STRIDED))
        for name, (part, along, chunk, formula, made) in formulas.items():
            for count, processes in ((3, 1), (5, 3), (1, 2)):
                with self.subTest(view=name, chunks=count, processes=processes):
                    shape = [size * count if axis == along else size for axis, size in enumerate(part)]
                    array = numpy.random.default_rng(count).integers(-2**31, 2**31, shape, dtype="int32")
                    self.store("s", array, chunk)
                    self.see_what_is_stored(program, name, count, processes, chunks_of(formula(array), made))
                    shutil.rmtree(f"{self.top}/s")


__all__ = ["Loops"]
