"""Index arrays that take what a slice takes, and refusals that name the line to write."""
from __future__ import annotations

import itertools
import os
import unittest
import warnings
from typing import Any
from unittest import mock

from .support import PROGRAM, Case, WithProgram, cengmoat, np, xp

try:
    import xarray
except ImportError:
    xarray = None
else:
    import cengmoat.xarray


class Computed(BaseException):
    """Something was computed."""


class Arrays(Case):
    def setUp(self) -> None:
        super().setUp()
        self.here = self.store()
        self.data = np.arange(120, dtype="int16").reshape(4, 5, 6)
        self.x = self.here.save("x", self.data, (2, 3, 4))

    def test_plain_ranges_are_slices(self) -> None:
        """What is stored is read by the key, as NumPy does it, and the lazy array has its shape."""
        mask = np.array([False, True, True, False])
        keys: list[Any] = [
            [0, 1, 2], [3, 1], [2], [-1], [-4, -2], np.array([3, 2, 1, 0]), np.array([], "int64"), [], mask, list(mask), np.array([True] * 4), np.zeros(4, bool),
            (slice(None), [0, 2, 4]), (..., [5, 3, 1]), (..., [1, 2], slice(1, 3)), (0, [1, 2]), ([1, 2], 0), (slice(1, 3), 0, [1, 2]), (None, [1, 2]), ([1, 2], None),
            (0, ..., slice(2)), np.ix_([0, 1], [1, 3]), np.ix_([3, 2], [0], [1, 2]), (slice(1, 3), *np.ix_([0, 2, 4], [1])), np.ix_([1], [2]), np.ix_([], [1, 2]),
            (np.array([[0], [1]]), np.array([[1, 2, 3]]), 3), np.array([1, 2], "uint64"), np.arange(4)[None, :1] * 0 + np.array([[2]])]
        for key in keys[:-1]:
            with self.subTest(key):
                wanted = self.data[key]
                self.assertEqual(self.x[key].shape, wanted.shape)
                self.same(self.here.read("x", key), wanted)
        self.assertRaises(NotImplementedError, self.x.__getitem__, np.array([[0, 1], [2, 3]]))

    def test_what_numpy_takes_otherwise_is_refused(self) -> None:
        """Points, and arrays with something between them, whose axis NumPy puts in front."""
        for key in (([0, 1], [0, 1]), ([0, 1], [0]), ([0], [0, 1]), (0, slice(None), [1, 2]), ([1, 2], slice(None), 0), ([0, 1], slice(None), [0, 1]),
                    ([0, 1], None, 0), [0, 0], [0, 1, 3], [0, 2, 1], [True, False, True, True], np.zeros((4, 5), bool), np.array([[0, 1], [2, 3]]),
                    (np.array([[0, 1]]), np.array([[0], [1]])), self.x, self.x > 3, (np.array([[0, 1], [1, 2]]), np.array([[0]]))):
            with self.assertRaises(NotImplementedError, msg=key), mock.patch("cengmoat._running.compute_node", side_effect=Computed):
                self.x[key]
        for key in ([4], [-5], [0, 9], (slice(None), [7]), [True], np.ones(5, bool), [0.5, 1.5], ["a"], (0, 0, 0, [1])):
            self.assertRaises(IndexError, self.x.__getitem__, key)

    def test_every_short_list_of_places(self) -> None:
        """A list of places gives what NumPy gives, or is refused where no slice does."""
        for count in range(4):
            for places in itertools.product(range(-4, 4), repeat=count):
                steps = {b % 4 - a % 4 for a, b in zip(places, places[1:])}
                if len(steps) > 1 or 0 in steps:
                    self.assertRaises(NotImplementedError, self.here.read, "x", list(places))
                else:
                    self.same(self.here.read("x", list(places)), self.data[list(places)], places)

    def test_the_line_for_other_places(self) -> None:
        for places, wanted in (([0, 1, 3], "xp.concat([x[0:2], x[3:4]])"), ([0, 0], "xp.concat([x[0:1], x[0:1]])"),
                               ([3, 0, 1, 2, 0, 3, 1], "xp.concat([x[3:4], x[0:3], x[0:1], x[3:4], ..])")):
            for call in (lambda: self.x[places], lambda: np.take(self.x, places, axis=0), lambda: self.x.take(places, 0), lambda: xp.take(self.x, np.array(places), axis=0)):
                with self.assertRaises(NotImplementedError) as found:
                    call()
                self.assertIn(f"Write {wanted} along that axis", str(found.exception))

    def test_take(self) -> None:
        x, data = self.x, self.data
        for lazy, wanted in ((np.take(x, [1, 2], axis=0), data[1:3]), (x.take(3, axis=1), data[:, 3]), (x.take([-1, -3], axis=-1), data[..., [-1, -3]]),
                             (xp.take(x, np.array([0, 2]), axis=0), data[[0, 2]]), (x.take([5, 6]), data.ravel()[5:7])):
            self.assertEqual((lazy.shape, lazy.dtype), (wanted.shape, wanted.dtype))
        self.assertRaises(TypeError, x.take, [0.5])
        self.assertRaises(TypeError, x.take, [0], mode="wrap")
        self.assertRaises(IndexError, x.take, [9], 0)
        self.assertRaises(ValueError, xp.take, x, np.array([0]))


class Lines(Case):
    """Each refusal names a line, and nothing is computed by the way."""

    def setUp(self) -> None:
        if xarray is None:
            self.skipTest("xarray isn't there")
        super().setUp()
        self.data = np.arange(-12, 36, dtype="int32").reshape(8, 6)
        coords = {"time": np.datetime64("2000-01-28", "ns") + np.arange(8) * np.timedelta64(1, "D"), "place": list("abcdef")}
        self.x = xarray.DataArray(self.store().save("x", self.data, (3, 4)), dims=("time", "place"), coords=coords)
        patch = mock.patch("cengmoat._running.compute_node", side_effect=Computed)
        patch.start()
        self.addCleanup(patch.stop)

    def test_functions_of_xarray(self) -> None:
        x, points = self.x, xarray.DataArray([0, 3, 2], dims="point")
        for wanted, call in (
                ("x.where(cond, fill)", lambda: x.where(x > 3)), ("x.where(cond, fill)", lambda: x.to_dataset(name="x").where(x > 3)),
                ("x.cengmoat.rolling(..)", lambda: x.rolling(time=2).sum()), ("x.cengmoat.rolling(..)", lambda: x.rolling(time=2).mean()),
                ("x.cengmoat.rolling(..)", lambda: x.rolling(time=2).construct("w")), ("x.cengmoat.groupby(..)", lambda: x.groupby("time.month").sum()),
                ("x.cengmoat.groupby(..)", lambda: x.groupby("time.month").max()), ("x.cengmoat.groupby(..)", lambda: x.groupby("time.month").map(lambda part: part.sum())),
                ("x.argmax(\"time\").compute()", lambda: x.idxmax("time")), ("argmin for idxmin", lambda: x.idxmin("time")),
                ("x.cengmoat.decode().std(..)", lambda: x.std("time")), ("xarray.concat([x.isel(time=i, place=j)", lambda: x.isel(time=points, place=points)),
                ("x.cengmoat.decode().ffill(..)", lambda: x.ffill("time")), ("x.cengmoat.decode().bfill(..)", lambda: x.bfill("time")),
                ("x.data.to_dask().map_blocks(f)", lambda: x.map_blocks(lambda part: part + 1)), ("xp.concat([x[0:2], x[4:5]])", lambda: x.isel(place=[0, 1, 4])),
                ("x.shift(.., fill_value=0)", lambda: x.shift(time=1)), ("x.pad(.., constant_values=0)", lambda: x.pad(time=1)),
                ("x.cengmoat.resample(..)", lambda: x.resample(time="M").mean())):
            with self.subTest(wanted), warnings.catch_warnings():
                warnings.simplefilter("ignore")
                with self.assertRaises(NotImplementedError) as found:
                    call()
                self.assertIn(wanted, str(found.exception))

    def test_nothing_is_assigned(self) -> None:
        x = self.x

        def assign(array: Any, key: Any) -> None:
            array[key] = 5

        for call in (lambda: assign(x, 0), lambda: assign(x, {"time": 0}), lambda: assign(x.loc, "2000-01-29"), lambda: assign(x.data, 0)):
            with self.assertRaises(TypeError) as found:
                call()
            self.assertIn("Write x.where(cond, fill)", str(found.exception))

    def test_the_rows_of_a_caller_are_not_named_without_it(self) -> None:
        for call in (lambda: self.x.data.astype("float64"), lambda: xp.std(self.x.data), lambda: self.x.data[[0, 1, 3]]):
            with self.assertRaises(NotImplementedError) as found:
                call()
            self.assertNotIn("x.cengmoat", str(found.exception))


class Ranges(WithProgram):
    """Calls of xarray that take index arrays."""

    def test_they_are_lazy(self) -> None:
        if xarray is None:
            self.skipTest("xarray isn't there")
        data = np.arange(-12, 36, dtype="int32").reshape(8, 6)
        coords = {"time": np.datetime64("2000-12-28", "ns") + np.arange(8) * np.timedelta64(1, "D"), "place": list("abcdef")}
        stored = self.store().save("x", data, (3, 4))
        lazy, exact = (xarray.DataArray(it, dims=("time", "place"), coords=coords) for it in (stored, data))
        for work in (lambda x: x.sel(time=x.time.dt.year == 2001), lambda x: x.sortby("time"), lambda x: x.sortby("time", ascending=False),
                     lambda x: x[0:5] + x[2:7], lambda x: x.sel(place=["a", "c"]), lambda x: x.isel(time=[0, 1], place=[5, 3]),
                     lambda x: x.isel(time=0, place=[1, 2]), lambda x: x.isel(time=[0, 2], place=-1), lambda x: x.isel(time=[1]).squeeze("time"),
                     lambda x: x.where(x.time.dt.year == 2001, 0, drop=False), lambda x: x.reindex(place=list("bcd")), lambda x: x.isel(time=np.zeros(8, bool)),
                     lambda x: x.isel(time=[1, 2]).transpose("place", "time").isel(place=[0], time=[1, 0]), lambda x: x.dropna("time") if x is exact else x):
            one, other = work(lazy), work(exact)
            self.assertIsInstance(one.data, cengmoat.Array)
            self.assertEqual((one.dims, one.shape), (other.dims, other.shape))
            self.same(one.data.compute(), other.data)
            self.assertTrue(one.coords.to_dataset().identical(other.coords.to_dataset()))


if __name__ == "__main__":
    unittest.main()
