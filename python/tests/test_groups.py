"""Sums up to each place, and folds by labels: what is known beforehand, and NumPy's numbers."""
from __future__ import annotations

import importlib.util
import re
import unittest
from typing import Any

from .support import Case, WithProgram, cengmoat, np, xp

KNOWS = """
import json
text = sys.stdin.read()
sys.exit(8 if json.loads(text)["nodes"][-1]["op"] in ("cumulative_sum", "groupby_sum", "groupby_min") else 3)
"""


class Known(Case):
    def setUp(self) -> None:
        super().setUp()
        self.here = self.store(program=self.fake_program(KNOWS))
        self.x = self.here.save("x", np.arange(24, dtype="int16").reshape(4, 6), (2, 4), dims=("time", "place"))
        self.labels = np.array([0, 1, 0, 3])

    def test_sums_up_to_each_place(self) -> None:
        for lazy, shape, dtype, chunks in (
                (xp.cumulative_sum(self.x, axis=1), (4, 6), "int64", (2, 4)), (xp.cumulative_sum(self.x[0]), (6,), "int64", (4,)),
                (self.x.cumsum(0), (4, 6), "int64", (2, 4)), (np.cumsum(self.x), (24,), "int64", (8,)), (np.cumsum(self.x, axis=-1), (4, 6), "int64", (2, 4)),
                (xp.cumulative_sum(self.x, axis=0, dtype="int8"), (4, 6), "int8", (2, 4)), ((self.x > 3).cumsum(0), (4, 6), "int64", (2, 4)),
                (xp.cumulative_sum(self.x.astype("uint8"), axis=0, include_initial=True), (5, 6), "uint64", (2, 4))):
            self.assertEqual((lazy.shape, lazy.dtype, lazy.chunksize), (shape, np.dtype(dtype), chunks), lazy)
        self.assertEqual(xp.cumulative_sum(self.x, axis=-1).node.members, {"axis": 1})
        self.assertEqual(xp.cumulative_sum(self.x, axis=0).dims, ("time", "place"))
        self.assertRaises(ValueError, xp.cumulative_sum, self.x)
        self.assertRaises(IndexError, xp.cumulative_sum, self.x, axis=2)

    def test_folds_by_labels(self) -> None:
        for function, dtype in ((cengmoat.groupby_sum, "int64"), (cengmoat.groupby_min, "int16"), (cengmoat.groupby_max, "int16"),
                                (cengmoat.groupby_count, "int64")):
            found = function(self.x, self.labels, 0, 3)
            self.assertEqual((found.shape, found.dtype, found.chunksize), ((3, 6), np.dtype(dtype), (3, 4)))
        self.assertEqual(cengmoat.groupby_sum(self.x, self.labels, -2, 3).node.members, {"axis": 0, "groups": 3})
        for groups in (0, 65_537):
            self.assertRaises(ValueError, cengmoat.groupby_sum, self.x, self.labels, 0, groups)
        for call in (lambda: cengmoat.groupby_sum(self.x, self.labels, 1, 3), lambda: cengmoat.groupby_sum(self.x, self.labels[None], 0, 3)):
            self.assertRaises(ValueError, call)
        for call in (lambda: cengmoat.groupby_sum(self.x > 3, self.labels, 0, 3), lambda: cengmoat.groupby_min(self.x, self.labels > 0, 0, 3),
                     lambda: cengmoat.groupby_sum(self.x, self.labels, 0, 2.5)):
            self.assertRaises(TypeError, call)
        self.assertRaises(IndexError, cengmoat.groupby_sum, self.x, self.labels, 2, 3)

    def test_groups_of_xarray(self) -> None:
        if importlib.util.find_spec("xarray") is None:
            self.skipTest("xarray isn't there")
        import xarray

        import cengmoat.xarray
        times = np.datetime64("2000-01-30", "ns") + np.arange(4) * np.timedelta64(1, "D")
        x = xarray.DataArray(self.x, coords={"time": times, "place": list("abcdef")})
        found = x.cengmoat.groupby("time.month").sum()
        self.assertEqual((found.dims, found.shape, list(found.month.values), list(found.place.values)), (("month", "place"), (2, 6), [1, 2], list("abcdef")))
        self.assertIsInstance(found.data, cengmoat.Array)
        self.assertEqual(found.data.node.members, {"axis": 0, "groups": 2})
        self.assertEqual(found.data.node.arrays[1].data.tolist(), [0, 0, 1, 1])
        labels = xarray.DataArray([0.5, np.nan, 0.5, 2.0, 2.0, 0.5], dims="place", name="kind")
        found = x.cengmoat.groupby(labels).max()
        self.assertEqual((found.dims, list(found.kind.values)), (("time", "kind"), [0.5, 2.0]))
        self.assertEqual([it.tolist() for it in (cengmoat.xarray.Groups(x, labels, "kind").numbers,)], [[0, -1, 0, 1, 1, 0]])
        self.assertRaises(ValueError, x.cengmoat.groupby, x)
        self.assertRaises(TypeError, xarray.DataArray(np.zeros(3), dims="a").cengmoat.groupby, "a")

    def test_a_program_that_lacks_them(self) -> None:
        x = self.store(program=self.fake_program("sys.exit(3)"))["x"]
        for call in (lambda: x.cumsum(0), lambda: np.cumsum(x), lambda: xp.cumulative_sum(x, axis=0), lambda: cengmoat.groupby_sum(x, self.labels, 0, 3)):
            self.assertRaises(NotImplementedError, call)


class Numbers(WithProgram):
    def test_sums_up_to_each_place(self) -> None:
        here = self.store(split_every=2)
        data = np.array([[3, -7, 100, 5, -2, 9]] * 7, "int8") * np.arange(1, 8, dtype="int8")[:, None]
        for number, chunks in enumerate(((7, 6), (1, 1), (2, 4), (3, 6))):
            x = here.save(f"x{number}", data, chunks)
            for axis in (0, 1, -1):
                self.computes(x.cumsum(axis), np.cumsum(data, axis=axis, dtype="int64"), (chunks, axis))
            self.computes(np.cumsum(x), np.cumsum(data, dtype="int64"), chunks)
            self.computes((x > 3).cumsum(0), np.cumsum(data > 3, axis=0), chunks)
            wanted = np.concatenate([np.zeros((1, 6), "int64"), np.cumsum(data, axis=0, dtype="int64")])
            self.computes(xp.cumulative_sum(x, axis=0, include_initial=True), wanted, chunks)
        self.assertEqual(here["x1"].cumsum(0).store("sums").dtype, np.dtype("int64"))
        self.assertEqual(here["x1"].cumsum(0).check("sums"), 42)

    def test_folds_by_labels(self) -> None:
        here = self.store(split_every=2)
        data = (np.arange(42, dtype="int32").reshape(7, 6) * 7919) % 101 - 50
        labels = np.array([0, 1, 0, 4, 1, -1, 2])
        for number, chunks in enumerate(((7, 6), (1, 1), (2, 4), (3, 6))):
            x = here.save(f"x{number}", data, chunks)
            parts = [data[labels == label] for label in range(4)]
            ends = np.iinfo("int32")
            for function, exact in (
                    (cengmoat.groupby_sum, np.stack([part.sum(axis=0) for part in parts])), (cengmoat.groupby_count, np.stack([np.full(6, len(part)) for part in parts])),
                    (cengmoat.groupby_min, np.stack([part.min(axis=0, initial=ends.max) for part in parts])),
                    (cengmoat.groupby_max, np.stack([part.max(axis=0, initial=ends.min) for part in parts]))):
                self.computes(function(x, labels, 0, 4), exact, (function.__name__, chunks))

    def test_months_of_xarray(self) -> None:
        if importlib.util.find_spec("xarray") is None:
            self.skipTest("xarray isn't there")
        import xarray

        import cengmoat.xarray  # noqa: F401
        data = (np.arange(800, dtype="int16").reshape(400, 2) * 31) % 97 - 40
        times = np.datetime64("2000-01-01", "ns") + np.arange(400) * np.timedelta64(1, "D")
        exact = xarray.DataArray(data, coords={"time": times, "place": ["a", "b"]})
        lazy = xarray.DataArray(self.store().save("t", data, (100, 1)), coords=exact.coords)
        for name in ("sum", "min", "max", "count", "first"):
            found, wanted = (getattr(it.groupby("time.month"), name)() for it in (lazy.cengmoat, exact))
            self.computes(found.data, wanted.transpose("month", "place").data, name)
            self.assertTrue(found.compute().identical(wanted.transpose("month", "place")), name)

    def pair(self, data: Any, chunks: Any, freq: str = "D", start: str = "2000-01-01") -> tuple[Any, Any]:
        """Return an array of xarray over a lazy one and one over NumPy's, with times along the first axis."""
        if importlib.util.find_spec("xarray") is None:
            self.skipTest("xarray isn't there")
        import xarray

        import cengmoat.xarray  # noqa: F401
        times = np.datetime64(start, "ns") + np.arange(len(data)) * np.timedelta64(1, freq)
        exact = xarray.DataArray(data, coords={"time": times, "place": list("abcdef")[:data.shape[1]]}, name="t")
        return xarray.DataArray(self.store().save("t", data, chunks), coords=exact.coords, name="t"), exact

    def test_more_folds_of_xarray(self) -> None:
        lazy, exact = self.pair((np.arange(300, dtype="int16").reshape(100, 3) * 31) % 7 - 4, (30, 2))
        groups, months = lazy.cengmoat.groupby("time.month"), exact.groupby("time.month")
        self.computes(groups.mean().data, (months.sum() // months.count()).data)
        self.computes(groups.mean(scale=10).data, (months.sum() * 10 // months.count()).data)
        self.computes((lazy > 2).cengmoat.groupby("time.month").any().data, (exact > 2).groupby("time.month").any().data)
        self.computes((lazy > -4).cengmoat.groupby("time.month").all().data, (exact > -4).groupby("time.month").all().data)
        self.computes(groups.any().data, (exact != 0).groupby("time.month").any().data)
        self.computes((lazy > 0).cengmoat.groupby("time.month").first().data, (exact > 0).groupby("time.month").first().data)
        self.computes((lazy > 0).cengmoat.groupby("time.month").sum().data, (exact > 0).groupby("time.month").sum().data)

    def test_bins_of_time(self) -> None:
        import pandas
        data = (np.arange(800, dtype="int16").reshape(400, 2) * 31) % 97 - 40
        lazy, exact = self.pair(data, (100, 1))
        for rule in ("5D", "M", "W"):
            bins, wanted = lazy.cengmoat.resample(time=rule), exact.resample(time=rule)
            found = bins.sum()
            self.computes(found.data, wanted.sum().data, rule)
            self.assertTrue((found.time == wanted.sum().time).all() and found.dims == ("time", "place"), rule)
        for name in ("min", "max", "count", "first"):
            self.computes(getattr(bins, name)().data, getattr(wanted, name)().data, name)
        self.computes(bins.mean(scale=100).data, (wanted.sum() * 100 // wanted.count()).data)
        # bins without elements: sums and counts are 0, and the others have a value that is given
        self.store().remove("t", inputs=True)
        lazy, exact = self.pair(np.array([[5], [7], [-9]], "int16"), (2, 1), "W")
        bins = lazy.cengmoat.resample(time="3D")
        self.computes(bins.sum().data[:, 0], [5, 0, 7, 0, -9])
        self.computes(bins.count().data[:, 0], [1, 0, 1, 0, 1])
        self.computes(bins.max(fill_value=-1).data[:, 0], np.array([5, -1, 7, -1, -9], "int16"))
        self.computes(bins.mean(fill_value=3).data[:, 0], [5, 3, 7, 3, -9])
        self.computes(bins.first().data[:, 0], np.array([5, 0, 7, 0, -9], "int16"))
        self.computes((lazy > 0).cengmoat.resample(time="3D").any().data[:, 0], [True, False, True, False, False])
        self.computes((lazy > 0).cengmoat.resample(time="3D").all().data[:, 0], [True, True, True, True, False])
        # 30 years of months are as many nodes as two
        index = pandas.date_range("1990-01-01", periods=10_957)
        import xarray
        days = xarray.DataArray(self.store().save("d", np.zeros(10_957, "int8"), 1000), coords={"time": index})
        months = days.cengmoat.resample(time="M").mean()
        self.assertEqual((months.shape, len(cengmoat._nodes.Graph(months.data.node).nodes)), ((360,), 5))
        backwards = days.isel(time=slice(None, None, -1))
        self.assertRaises(ValueError, backwards.cengmoat.resample, time="M")
        self.assertRaises(ValueError, days.cengmoat.resample)
        self.assertRaises(TypeError, lazy.cengmoat.resample, place="M")

    def test_groups_that_are_refused(self) -> None:
        lazy, exact = self.pair(np.arange(120, dtype="int16").reshape(60, 2), (30, 1))
        for call in (lambda: lazy.groupby("time.month").sum(), lambda: lazy.groupby("time.month").max("time"), lambda: lazy.groupby("time.day").first(),
                     lambda: lazy.groupby("time.month").map(lambda it: it)):
            with self.assertRaises(NotImplementedError) as found:
                call()
            self.assertIn("x.cengmoat.groupby(\"time.month\").sum()", str(found.exception))
        clim = lazy.cengmoat.groupby("time.month").mean()
        groups = lazy.cengmoat.groupby("time.month")
        for call in (lambda: groups - clim, lambda: groups + clim, lambda: clim - groups, lambda: lazy.groupby("time.month") - clim):
            with self.assertRaises(NotImplementedError) as found:
                call()
            [line] = re.findall(r"Write (.*) over clim = (?:.*)", str(found.exception))
        means = exact.groupby("time.month").sum() // exact.groupby("time.month").count()
        self.computes(eval(line, {"x": lazy, "clim": clim}).data, (exact.groupby("time.month") - means).data)
        # xarray's own resample takes slices
        self.computes(lazy.resample(time="M").sum().data, exact.resample(time="M").sum().data)


class Rolling(WithProgram):
    def test_running_sums(self) -> None:
        if importlib.util.find_spec("xarray") is None:
            self.skipTest("xarray isn't there")
        import xarray

        import cengmoat.xarray  # noqa: F401
        data = (np.arange(150, dtype="int16").reshape(75, 2) * 7919) % 1009 - 500
        exact = xarray.DataArray(data, dims=("time", "place"), coords={"place": ["a", "b"]})
        lazy = xarray.DataArray(self.store().save("t", data, (20, 1)), dims=exact.dims, coords=exact.coords)
        for window, least in ((1, None), (2, None), (7, None), (7, 1), (7, 3), (64, 60)):
            its, ours = exact.rolling(time=window, min_periods=least), lazy.cengmoat.rolling(time=window, min_periods=least, fill_value=-7)
            counts = np.minimum(np.arange(75) + 1, window)[:, None]
            sums = its.sum().values
            known = ~np.isnan(sums)
            whole = np.where(known, sums, 0).astype("int64")
            for name, wanted in (("sum", whole), ("mean", whole // counts), ("max", its.max().values), ("min", its.min().values)):
                found = getattr(ours, name)()
                self.assertEqual((found.dims, list(found.place.values)), (("time", "place"), ["a", "b"]))
                self.computes(found.data, np.where(known, wanted, -7).astype("int64"), (window, least, name))
        self.computes(lazy.cengmoat.rolling(time=7).mean(scale=10).data, np.where(np.arange(75)[:, None] < 6, 0, np.nan_to_num(
            exact.rolling(time=7).sum().values).astype("int64") * 10 // 7))
        along = lazy.cengmoat.rolling(place=2, min_periods=1)
        self.computes(along.sum().data, exact.rolling(place=2, min_periods=1).sum().values.astype("int64"))
        self.computes((lazy > 0).cengmoat.rolling(time=3, min_periods=1).sum().data, (exact > 0).rolling(time=3, min_periods=1).sum().values.astype("int64"))
        self.assertEqual(lazy.cengmoat.rolling(time=7).sum().data.chunksize, (20, 1))
        # stored numbers are folded, those that stand for what is missing too
        numbers = np.array([5, -9, 7, 3, -9], "int16")
        gaps = xarray.DataArray(self.store().save("gaps", numbers, 2, dims=("time",), attrs={"_FillValue": -9}))
        self.computes(gaps.cengmoat.rolling(time=2, min_periods=1).max().data, np.array([5, 5, 7, 7, 3]))
        self.computes(gaps.cengmoat.rolling(time=2, min_periods=1).sum().data, np.array([5, -4, -2, 10, -6]))
        short = lazy[:3].cengmoat.rolling(time=7, min_periods=2)
        zeros = np.zeros((1, 2), "int64")
        self.computes(short.sum().data, np.concatenate([zeros, np.cumsum(data[:3], axis=0)[1:]]))
        self.computes(short.max().data, np.concatenate([zeros, np.maximum.accumulate(data[:3])[1:]]))

    def test_windows_that_are_refused(self) -> None:
        if importlib.util.find_spec("xarray") is None:
            self.skipTest("xarray isn't there")
        import xarray

        import cengmoat.xarray  # noqa: F401
        lazy = xarray.DataArray(self.store().save("t", np.arange(100), 20), dims=("time",))
        for options in ({"time": 65}, {"time": 0}, {"time": 7, "min_periods": 8}, {"time": 7, "min_periods": 0}, {"place": 7}, {}, {"time": 2, "place": 3}):
            self.assertRaises(ValueError, lazy.cengmoat.rolling, **options)
        self.assertRaises(TypeError, lazy.cengmoat.rolling, time=2.5)
        with self.assertRaises(NotImplementedError) as found:
            lazy.cengmoat.rolling(time=7, center=True)
        self.assertIn(".shift(time=-(n // 2), fill_value=0)", str(found.exception))
        with self.assertRaises(TypeError):
            xarray.DataArray(np.arange(3), dims="time").cengmoat.rolling(time=2)


if __name__ == "__main__":
    unittest.main()
