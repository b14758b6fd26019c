"""Names of axes and attributes: how they are stored, and how they come through an expression to a stored result."""
from __future__ import annotations

import json
import os
import unittest
from typing import Any

from .support import Case, WithProgram, cengmoat, np, xp

try:
    import xarray
except ImportError:
    xarray = None


class Labels(Case):
    def setUp(self) -> None:
        super().setUp()
        self.here = self.store()
        self.about = {"units": "0.1 K", "long_name": "temperature", "scale_factor": 10, "_FillValue": -1}
        self.t = self.here.save("t", np.arange(24, dtype="int32").reshape(2, 3, 4), dims=("time", "row", "col"), attrs=self.about)
        self.b = self.here.save("b", np.arange(4, dtype="int32"), dims=["col"], attrs={"units": "1", "why": "base"})

    def test_they_are_stored_and_read(self) -> None:
        with open(os.path.join(self.here.folder, "t", "zarr.json"), encoding="utf-8") as file:
            told = json.load(file)
        self.assertEqual((told["dimension_names"], told["attributes"]), (["time", "row", "col"], self.about))
        self.assertEqual((self.t.dims, self.t.attrs), (("time", "row", "col"), self.about))
        self.assertEqual((self.here.save("plain", np.arange(3)).dims, self.here["plain"].attrs), (None, {}))
        for bad in (("time",), "abc", (1, 2, 3)):
            self.assertRaises(ValueError, self.here.save, "bad", np.zeros((2, 3, 4), "int8"), dims=bad)
        self.assertRaises(TypeError, self.here.save, "bad", np.zeros(3, "int8"), attrs={"a": np.arange(3)})
        self.assertRaises(TypeError, self.here.save, "bad", np.zeros(3, "int8"), attrs={"a": float("nan")})

    def test_names_through_each_operator(self) -> None:
        t, b = self.t, self.b
        for lazy, wanted in (
                (t + 1, ("time", "row", "col")), (t - b, ("time", "row", "col")), (b * t, ("time", "row", "col")), (t > 2, ("time", "row", "col")),
                (t.sum(axis=0), ("row", "col")), (t.max(axis=(0, -1)), ("row",)), (t.any(axis=1, keepdims=True), ("time", "row", "col")),
                (t.argmax(axis=2), ("time", "row")), (t.sum(), ()), (t[0], ("row", "col")), (t[..., 1], ("time", "row")),
                (t[:, None, 1:], ("time", None, "row", "col")), (t[::-1, 0, :2], ("time", "col")), (xp.permute_dims(t, (2, 0, 1)), ("col", "time", "row")),
                (t.reshape(2, 12), ("time", None)), (t.reshape(6, 4), (None, "col")), (t.reshape(2, 3, 2, 2), ("time", "row", None, None)),
                (xp.expand_dims(t, axis=1), ("time", None, "row", "col")), (t[:1].squeeze(0), ("row", "col")), (xp.flip(t), ("time", "row", "col")),
                (t.rechunk(1), ("time", "row", "col")), (t.astype("int8"), ("time", "row", "col")), (xp.concat([t, t]), ("time", "row", "col")),
                (xp.stack([t, t], axis=1), ("time", None, "row", "col")), (xp.broadcast_to(b, (3, 4)), (None, "col")), (t @ t.mT, ("time", "row", "row")),
                (xp.where(t > b, t, 0), ("time", "row", "col")), (t + xp.permute_dims(t[:, :2], (1, 0, 2))[:, :1], (None, "row", "col")),
                (xp.zeros((2, 3), dtype="int8"), (None, None)), (t[0] + np.arange(4, dtype="int32"), ("row", "col"))):
            self.assertEqual(cengmoat._labels.labels_of(lazy.node)[0], wanted, lazy)
            self.assertEqual(len(wanted), lazy.ndim)

    def test_attributes_through_operators(self) -> None:
        t, b = self.t, self.b
        for lazy, wanted in ((t[0], self.about), (t.rechunk(1), self.about), (t.mT, self.about), (t + 1, {}), (t - b, {}), (t.sum(axis=0), {}),
                             (t > 2, {}), (t.argmin(axis=0), {}), (t[0, 0] + b, {"why": "base"}), (xp.concat([t[0, 0], b]), {"why": "base"})):
            self.assertEqual(lazy.attrs, wanted, lazy)

    def test_what_not_each_reader_takes_is_not_written(self) -> None:
        nested: Any = 1
        for _ in range(126):
            nested = [nested]
        data, before = np.zeros(3, "int8"), self.here.names()
        for bad in ({"a": "\ud800"}, {"\ud800": 1}, {1: "a", "b": 2}, {"a": 10**400}, {"a": nested}, {"a": [float("inf")]}):
            self.assertRaises(TypeError, self.here.save, "bad", data, attrs=bad)
        for more in ({"attrs": {"a": "x" * 2**20}}, {"dims": ("\ud800",)}):
            self.assertRaises(ValueError, self.here.save, "bad", data, **more)
        self.assertEqual(self.here.names(), before)
        self.assertEqual(self.here.save("deep", data, attrs={"a": nested[0]}).attrs, {"a": nested[0]})

    def test_a_result_of_version_2_stays_readable(self) -> None:
        """zarr-python writes NaN and Infinity into .zattrs, which no metadata of version 3 may have."""
        layout = {"chunks": [4], "compressor": None, "dtype": "<i4", "fill_value": 0, "filters": None, "order": "C", "shape": [4], "zarr_format": 2}
        for name, text in (("v/.zarray", json.dumps(layout)), ("y/zarr.json", cengmoat._metadata.Metadata(np.dtype("int32"), (4,), (4,)).text())):
            os.makedirs(os.path.dirname(os.path.join(self.here.folder, name)))
            with open(os.path.join(self.here.folder, name), "w", encoding="utf-8") as file:
                file.write(text)
        for odd in ("Infinity", "[0, NaN]", "1e999", '"\\ud800"', "1" + "0" * 400, "[" * 200 + "]" * 200):
            with open(os.path.join(self.here.folder, "v", ".zattrs"), "w", encoding="utf-8") as file:
                file.write(f'{{"odd": {odd}, "source": "a"}}')
            cengmoat._running._label(self.here.folder, "y", (self.here["v"] + 1).node)
            self.assertEqual(self.here["y"].attrs, {"source": "a"}, odd)

    def test_from_xarray(self) -> None:
        if xarray is None:
            self.skipTest("xarray isn't there")
        named = xarray.DataArray(np.arange(6, dtype="int16").reshape(2, 3), dims=("y", "x"), attrs={"units": "m", "count": np.int64(3), "odd": object()})
        stored = self.here.save("named", named)
        self.assertEqual((stored.dims, stored.attrs), (("y", "x"), {"units": "m", "count": 3}))
        again = xarray.DataArray(stored)
        self.assertEqual((again.dims, again.attrs), (("y", "x"), {"units": "m", "count": 3}))
        self.assertEqual(xarray.DataArray(self.here.save("plain", np.zeros((2, 3), "int8"))).dims, ("dim_0", "dim_1"))


    def test_a_file_of_xarray_is_read_chunk_by_chunk(self) -> None:
        if xarray is None:
            self.skipTest("xarray isn't there")
        from xarray.core import indexing
        exact = np.arange(40, dtype="int16").reshape(10, 4)

        class Far(xarray.backends.BackendArray):
            """An array of a file, of which parts are read."""

            shape, dtype, most = exact.shape, exact.dtype, 0

            def __getitem__(self, key: Any) -> Any:
                return indexing.explicit_indexing_adapter(key, self.shape, indexing.IndexingSupport.BASIC, self.part)

            def part(self, key: Any) -> np.ndarray:
                found = exact[key]
                self.most = max(self.most, found.size)
                return found

        far = Far()
        opened = xarray.Dataset({"v": (("y", "x"), indexing.MemoryCachedArray(indexing.LazilyIndexedArray(far)))})["v"]
        self.same(self.here.save("far", opened, (3, 2)).compute(), exact)
        self.assertEqual((far.most, self.here["far"].dims), (6, ("y", "x")))
        for lazy in (self.t, xarray.DataArray(self.t), xarray.DataArray(self.t).variable):
            self.assertRaises(TypeError, self.here.save, "bad", lazy)


class Results(WithProgram):
    def test_they_are_stored_with_a_result(self) -> None:
        here = self.store()
        t = here.save("t", np.arange(12, dtype="int32").reshape(3, 4), 2, dims=("time", "place"), attrs={"source": "a", "units": "K", "_FillValue": 0})
        total = t.sum(axis=0).store("total")
        self.assertEqual((total.dims, total.attrs), (("place",), {"source": "a"}))
        self.same(total.compute(), np.arange(12).reshape(3, 4).sum(axis=0))
        self.assertEqual(t.sum(axis=0).check("total"), 4)
        other = self.store()
        other._program = self.fake_program("sys.exit(70)")
        self.assertEqual(t.sum(axis=0).store("total", other, resume=True).dims, ("place",))
        self.same((total * 2).compute(), np.arange(12).reshape(3, 4).sum(axis=0) * 2)

    def test_names_of_version_2(self) -> None:
        here = self.store()
        os.makedirs(os.path.join(here.folder, "old"))
        texts: dict[str, Any] = {".zarray": {"chunks": [2, 2], "compressor": None, "dtype": "<i4", "fill_value": 3, "filters": None, "order": "C",
                                             "shape": [2, 3], "zarr_format": 2}, ".zattrs": {"_ARRAY_DIMENSIONS": ["y", "x"], "source": "a"}}
        for name, text in texts.items():
            with open(os.path.join(here.folder, "old", name), "w", encoding="utf-8") as file:
                json.dump(text, file)
        new = (here["old"] + 1).store("new")
        self.assertEqual((new.dims, new.attrs), (("y", "x"), {"source": "a"}))
        self.same(new.compute(), np.full((2, 3), 4, "int32"))
        if xarray is not None:
            self.assertEqual(xarray.DataArray(new).sum("x").dims, ("y",))


if __name__ == "__main__":
    unittest.main()
