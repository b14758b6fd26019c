"""Floats at the door: comparisons with one are exact, and Dask and xarray take over where floats alone can do it."""
from __future__ import annotations

import importlib.util
import operator
import unittest
from fractions import Fraction
from typing import Any, Callable

from .support import Case, WithProgram, cengmoat, np, xp

COMPARISONS: tuple[Callable[[Any, Any], Any], ...] = (operator.lt, operator.le, operator.gt, operator.ge, operator.eq, operator.ne)


class Known(Case):
    def test_written_as_integers(self) -> None:
        x = self.store().save("x", np.arange(3, dtype="int16"))
        for lazy, op, number in (
                (x < 1574.99, "less_equal", 1574), (x <= 1574.99, "less_equal", 1574), (x > 1574.99, "greater_equal", 1575), (x < 1574.0, "less_equal", 1573),
                (x <= -2.5, "less_equal", -3), (1574.99 > x, "less_equal", 1574), (np.float64(2.5) <= x, "greater_equal", 3), (x == 7.0, "equal", 7),
                (x != np.float32(7), "not_equal", 7), (xp.less(x, 2.5), "less_equal", 2), (np.greater(1.5, x), "less_equal", 1),
                (x < np.array(2.5), "less_equal", 2), (x < 1e300, "greater_equal", -32768), (x > 32767.0, "less", -32768), (x == 0.5, "less", -32768),
                (x != 0.5, "greater_equal", -32768), (x >= -32768.5, "greater_equal", -32768)):
            self.assertEqual((lazy.node.op, lazy.node.args[1], lazy.dtype), (op, number, np.dtype("bool")), (op, number))
        for call in (lambda: x < float("nan"), lambda: x < float("inf"), lambda: np.less(x, np.nan), lambda: x + 1.5, lambda: (x > 1) < 0.5,
                     lambda: xp.add(x, 1.5)):
            self.assertRaises(TypeError, call)
        self.assertRaises(NotImplementedError, lambda: x < np.array([1.5]))


class Numbers(WithProgram):
    def test_each_comparison_is_exact(self) -> None:
        here = self.store()
        for dtype in ("int8", "uint8", "int64", "uint64"):
            ends = np.iinfo(dtype)
            data = np.array([ends.min, ends.min + 1, 0, 1, 2, 5, ends.max - 1, ends.max], dtype)
            x = here.save(f"x-{dtype}", data, 3)
            lazy, wanted = [], []
            for value in (0.0, -0.0, 1.5, 2.0, -0.5, 1e-300, float(ends.max), float(ends.min), -1e19, 2.0**63, 2.0**53 + 2, np.float32(2.5)):
                exact = Fraction(float(value))
                for compare in COMPARISONS:
                    lazy += [compare(x, value), compare(value, x)]
                    wanted += [[compare(Fraction(int(it)), exact) for it in data], [compare(exact, Fraction(int(it))) for it in data]]
            self.computes(xp.stack(lazy), wanted, dtype)


class WithDask(WithProgram):
    def setUp(self) -> None:
        for module in ("dask", "xarray"):
            if importlib.util.find_spec(module) is None:
                self.skipTest(f"{module} isn't there")
        super().setUp()
        self.data = (np.arange(60, dtype="int16").reshape(10, 6) * 37) % 101 - 50
        self.x = self.store().save("x", self.data, (4, 5), dims=("time", "place"),
                                   attrs={"scale_factor": 0.5, "add_offset": 10.0, "_FillValue": -50, "units": "K"})

    def test_chunks_of_dask(self) -> None:
        import dask.array
        for lazy, data in ((self.x, self.data), (self.x * 2 - 1, self.data * 2 - 1), (self.x > 3, self.data > 3)):
            found = lazy.to_dask()
            self.assertIsInstance(found, dask.array.Array)
            self.assertEqual((found.chunks, found.dtype), (lazy.chunks, lazy.dtype))
            self.assertIsInstance((found + 1)._meta, np.ndarray)
            self.same(found.compute(), data)
            self.same(found[2:5, 1].compute(), data[2:5, 1])
            self.same(found.mean(axis=0).compute(), data.mean(axis=0))
        self.x.to_dask().compute()
        self.store().remove("x", inputs=True)
        changed = self.store().save("x", self.data[:8], (4, 5))
        self.assertRaises(cengmoat.Stale, self.x.to_dask().compute)
        self.same(changed.to_dask().compute(), self.data[:8])

    def test_decoded(self) -> None:
        import dask.array
        import xarray

        import cengmoat.xarray  # noqa: F401
        times = np.datetime64("2000-01-01", "ns") + np.arange(10) * np.timedelta64(1, "D")
        lazy = xarray.DataArray(self.x, coords={"time": times}, name="t")
        wanted = np.where(self.data == -50, np.nan, self.data * 0.5 + 10)
        self.assertGreater(np.isnan(wanted).sum(), 0)
        found = lazy.cengmoat.decode()
        self.assertIsInstance(found.data, dask.array.Array)
        self.assertEqual((found.dims, found.name, found.dtype.kind, found.attrs), (("time", "place"), "t", "f", {"units": "K"}))
        np.testing.assert_array_equal(found.values, wanted)
        self.assertTrue((found.time == lazy.time).all())
        # xarray drops attributes in a reduction; the lazy array knows them where its elements are elements of the stored one
        part = lazy[2:5].cengmoat.decode()
        np.testing.assert_array_equal(part.values, wanted[2:5])
        plain = xarray.DataArray(self.store().save("plain", self.data), dims=("a", "b")).cengmoat.decode()
        self.assertEqual(plain.dtype, np.dtype("float64"))
        np.testing.assert_array_equal(plain.values, self.data)
        self.assertRaises(TypeError, lambda: xarray.DataArray(self.data, dims=("a", "b")).cengmoat.decode())


if __name__ == "__main__":
    unittest.main()
