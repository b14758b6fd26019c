"""Lazy arrays in xarray, where it can be imported."""
from __future__ import annotations

import importlib.util
import os
import re
import unittest
import warnings
from typing import Any

from .support import PYTHON, WithProgram, cengmoat, np, xp

try:
    import xarray
except ImportError:
    xarray = None


class XArray(WithProgram):
    def setUp(self) -> None:
        if xarray is None:
            self.skipTest("xarray isn't there")
        super().setUp()
        self.here = self.store()
        self.data = np.arange(-12, 12, dtype="int32").reshape(4, 6)
        self.base = np.array([1, -2, 3, 0, 5, 6], "int16")
        self.lazy = xarray.DataArray(self.here.save("t", self.data, (2, 4)), dims=("time", "place"))
        self.exact = xarray.DataArray(self.data, dims=("time", "place"))
        self.lazy_base = xarray.DataArray(self.here.save("b", self.base, 3), dims=("place",))
        self.exact_base = xarray.DataArray(self.base, dims=("place",))

    def agree(self, lazy: Any, exact: Any) -> None:
        """See that a result is lazy, and computes to what NumPy gives."""
        self.assertIsInstance(lazy.data, cengmoat.Array)
        self.assertEqual((lazy.dims, lazy.shape, lazy.dtype), (exact.dims, exact.shape, exact.dtype))
        self.same(lazy.data.compute(), exact.data)

    def test_arithmetic(self) -> None:
        for work in (lambda t, b: t - b, lambda t, b: b - t, lambda t, b: t * 2 + 1, lambda t, b: 7 - t, lambda t, b: -t, lambda t, b: abs(t),
                     lambda t, b: t // 3 % 5, lambda t, b: t & 12, lambda t, b: ~t):
            self.agree(work(self.lazy, self.lazy_base), work(self.exact, self.exact_base))

    def test_comparisons(self) -> None:
        for work in (lambda t, b: t > b, lambda t, b: t == b, lambda t, b: t != 3, lambda t, b: (t >= 0) & (t < 9), lambda t, b: ~(t <= 2)):
            self.agree(work(self.lazy, self.lazy_base), work(self.exact, self.exact_base))

    def test_parts_and_orders(self) -> None:
        for work in (lambda t: t.isel(time=slice(1, None), place=2), lambda t: t.isel(place=slice(None, None, -2)), lambda t: t[1],
                     lambda t: t.isel(time=-1), lambda t: t.transpose("place", "time"), lambda t: t.T, lambda t: t.astype("int8"),
                     lambda t: t.expand_dims("new"), lambda t: t.isel(time=slice(0, 1)).squeeze("time")):
            self.agree(work(self.lazy), work(self.exact))

    def test_reductions(self) -> None:
        for name in ("sum", "max", "min", "prod"):
            for dim in ("time", "place", None, ("time", "place")):
                self.agree(getattr(self.lazy, name)(dim), getattr(self.exact, name)(dim))
        for name in ("any", "all"):
            self.agree(getattr(self.lazy > 5, name)("time"), getattr(self.exact > 5, name)("time"))
        self.agree(((self.lazy - self.lazy_base) > 2).astype("int64").sum("time"), ((self.exact - self.exact_base) > 2).sum("time"))

    def test_values_and_texts(self) -> None:
        self.assertIn("cengmoat.Array", repr(self.lazy))
        self.assertIn("time", self.lazy._repr_html_())
        self.same((self.lazy + 1).values, self.data + 1)
        self.same((self.lazy + 1).to_numpy(), self.data + 1)
        self.assertEqual(int(self.lazy.sum()), int(self.data.sum()))
        before = self.keys(self.here.folder)
        self.assertEqual([key for key in before if key.startswith("tmp-")], [])

    def test_rows_of_the_page(self) -> None:
        """Each row of the page's table gives what it says, and NumPy's numbers."""
        with open(os.path.join(PYTHON, "README.md"), encoding="utf-8") as file:
            rows = re.findall(r"^\| `(.*)` \| (lazy|computed|refused) \|$", file.read(), re.M)
        self.assertGreater(len(rows), 50)
        coords = {"time": np.datetime64("2000-01-25", "ns") + np.arange(8) * np.timedelta64(1, "D"), "place": list("abcdef")}
        data = np.arange(-12, 36, dtype="int32").reshape(8, 6)
        arrays = {"x": (self.here.save("x", data, (3, 4)), data), "b": (self.here["b"], self.base)}
        dims = {"x": ("time", "place"), "b": ("place",)}
        both = [{"np": np, "xarray": xarray, **{name: xarray.DataArray(pair[at], dims=dims[name], coords={dim: coords[dim] for dim in dims[name]})
                                                for name, pair in arrays.items()}} for at in (0, 1)]
        for call, what in rows:
            with self.subTest(call), warnings.catch_warnings():
                warnings.simplefilter("ignore")
                if what == "refused":
                    with self.assertRaises(NotImplementedError) as found:
                        eval(call, dict(both[0]))
                    self.assertGreater(len(str(found.exception)), 20)
                    continue
                lazy, exact = (eval(call, dict(names)) for names in both)
                if what == "lazy":
                    self.agree(lazy, exact)
                else:
                    self.assertIsInstance(lazy.data, np.ndarray)
                    self.assertTrue(lazy.identical(exact))

    def test_chunks(self) -> None:
        wanted = {"time": (2, 2), "place": (4, 2)}
        self.assertEqual(self.lazy.chunks, ((2, 2), (4, 2)))
        self.assertEqual(dict(self.lazy.chunksizes), wanted)
        self.assertEqual(dict(self.lazy.to_dataset(name="t").chunks), wanted)
        self.assertEqual(self.lazy.chunk({"time": 1}).chunks, ((1, 1, 1, 1), (4, 2)))
        self.assertEqual(self.lazy.data.rechunk(((3, 1), (6,))).chunksize, (3, 6))
        self.assertRaises(ValueError, self.lazy.data.rechunk, ((1, 3), (6,)))

    def test_to_zarr(self) -> None:
        if importlib.util.find_spec("zarr") is None:
            self.skipTest("zarr isn't there")
        path = os.path.join(self.folder, "written")
        (self.lazy - self.lazy_base).to_dataset(name="anomaly").to_zarr(path)
        with xarray.open_zarr(path) as found:
            self.same(found["anomaly"].values, (self.exact - self.exact_base).values)

    def test_an_array_of_dask_says_which_to_convert(self) -> None:
        if importlib.util.find_spec("dask") is None:
            self.skipTest("dask isn't there")
        other = self.exact.chunk(2)
        for call in (lambda: self.lazy + other, lambda: other - self.lazy, lambda: xarray.where(self.lazy > 2, self.lazy, other)):
            with self.assertRaises(TypeError) as found:
                call()
            self.assertIn("convert one", str(found.exception))

    def test_dask_computes_them(self) -> None:
        if importlib.util.find_spec("dask") is None:
            self.skipTest("dask isn't there")
        import dask
        one, other = dask.compute(self.lazy.data + 1, self.lazy_base.data)
        self.same(one, self.data + 1)
        self.same(other, self.base)

    def test_stored_results(self) -> None:
        anomaly = self.lazy - self.lazy_base
        stored = xarray.DataArray(anomaly.data.store("anomaly"), dims=anomaly.dims)
        self.agree(stored.max("place"), (self.exact - self.exact_base).max("place"))
        self.assertEqual(anomaly.data.check("anomaly"), 24)
        self.assertEqual(xp.zeros_like(anomaly.data).shape, (4, 6))


if __name__ == "__main__":
    unittest.main()
